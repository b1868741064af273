"""What has a line for each kind of action, of sequence, of key and of OSC: the header, the packages over it, and csicodec_structs below it."""
