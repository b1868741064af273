/* What libvterm's tokenizer alone costs: it reads standard input, with callbacks that do nothing. tools/figures builds it, with
   Debian's libvterm-dev. */
#include <stdio.h>
#include <vterm.h>

/* It is given all that is left, and says how much of it is text. */
static int text(const char *bytes, size_t len, void *user)
{
    size_t at = 0;
    (void)user;
    while (at < len && (unsigned char)bytes[at] >= 0x20 && bytes[at] != 0x7f)
        at++;
    return at;
}

static int control(unsigned char byte, void *user)
{
    (void)byte, (void)user;
    return 1;
}

static int escape(const char *bytes, size_t len, void *user)
{
    (void)bytes, (void)user;
    return len;
}

static int csi(const char *leader, const long args[], int count, const char *intermed, char command, void *user)
{
    (void)leader, (void)args, (void)count, (void)intermed, (void)command, (void)user;
    return 1;
}

int main(void)
{
    static const VTermParserCallbacks calls = {.text = text, .control = control, .escape = escape, .csi = csi};
    static char chunk[4096];
    VTerm *vt = vterm_new(25, 80);
    vterm_set_utf8(vt, 1);
    vterm_parser_set_callbacks(vt, &calls, NULL);
    for (size_t len; (len = fread(chunk, 1, sizeof chunk, stdin)) > 0;)
        vterm_input_write(vt, chunk, len);
    vterm_free(vt);
    return 0;
}
