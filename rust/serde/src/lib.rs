//! It stands for serde in the repository, and has nothing of it.
#![no_std]
compile_error!(
    "the feature serde is for csicodec's package of a release, or of a registry: in the repository nothing needs a registry"
);
