//! The kinds of sequences without an action. Written by tools/table.

use crate::known::KnownKind;

impl KnownKind {
    /// `` ? extent 0-3 (or 0) J ``: erase in the display what isn't protected (EK-VT520-RM, DECSED).
    pub const DECSED: KnownKind = KnownKind(10001);
    /// `` ? extent 0-2 (or 0) K ``: erase in the line what isn't protected (EK-VT520-RM, DECSEL).
    pub const DECSEL: KnownKind = KnownKind(10002);
    /// `` protection 0-2 (or 0) " q ``: protection of the characters that follow (EK-VT520-RM, DECSCA).
    pub const DECSCA: KnownKind = KnownKind(10003);
    /// `` level 61-65; controls 0-2 (or 0) " p ``: conformance level, and the form of C1 controls (EK-VT520-RM, DECSCL).
    pub const DECSCL: KnownKind = KnownKind(10004);
    /// `` rate 0-3 (or 0) " t ``: refresh rate of the screen (EK-VT520-RM, DECSRFR).
    pub const DECSRFR: KnownKind = KnownKind(10005);
    /// `` limit 0-9 (or 0) " u ``: limit of the transmit rate (EK-VT520-RM, DECSTRL).
    pub const DECSTRL: KnownKind = KnownKind(10006);
    /// `` columns (or 1) ' } ``: insert columns (EK-VT520-RM, DECIC).
    pub const DECIC: KnownKind = KnownKind(10007);
    /// `` columns (or 1) ' ~ ``: delete columns (EK-VT520-RM, DECDC).
    pub const DECDC: KnownKind = KnownKind(10008);
    /// `` reports 0-2 (or 0); unit 0-2 (or 0) ' z ``: locator reports (xterm ctlseqs, DECELR).
    pub const DECELR: KnownKind = KnownKind(10009);
    /// `` events 0-4 (or 0); more 0-4 .. ' { ``: which events of the locator are reported (xterm ctlseqs, DECSLE).
    pub const DECSLE: KnownKind = KnownKind(10010);
    /// `` top (or 0); left (or 0); bottom (or 0); right (or 0) ' w ``: filter rectangle of the locator (xterm ctlseqs, DECEFR).
    pub const DECEFR: KnownKind = KnownKind(10011);
    /// `` delay 0-65535 (or 0) $ q ``: delay of disconnecting (EK-VT520-RM, DECSDDT).
    pub const DECSDDT: KnownKind = KnownKind(10012);
    /// `` printer 0-65535 (or 0) $ s ``: type of the printer (EK-VT520-RM, DECSPRTT).
    pub const DECSPRTT: KnownKind = KnownKind(10013);
    /// `` top (or 1); left (or 1); bottom (or 0); right (or 0); attribute (or 0); more .. $ r ``: change attributes in a rectangle (EK-VT520-RM, DECCARA).
    pub const DECCARA: KnownKind = KnownKind(10014);
    /// `` top (or 1); left (or 1); bottom (or 0); right (or 0); attribute (or 0); more .. $ t ``: reverse attributes in a rectangle (EK-VT520-RM, DECRARA).
    pub const DECRARA: KnownKind = KnownKind(10015);
    /// `` top (or 1); left (or 1); bottom (or 0); right (or 0); page (or 1); to top (or 1); to left (or 1); to page (or 1) $ v ``: copy a rectangle (EK-VT520-RM, DECCRA).
    pub const DECCRA: KnownKind = KnownKind(10016);
    /// `` character (or 32); top (or 1); left (or 1); bottom (or 0); right (or 0) $ x ``: fill a rectangle with a character (EK-VT520-RM, DECFRA).
    pub const DECFRA: KnownKind = KnownKind(10017);
    /// `` top (or 1); left (or 1); bottom (or 0); right (or 0) $ z ``: erase a rectangle (EK-VT520-RM, DECERA).
    pub const DECERA: KnownKind = KnownKind(10018);
    /// `` top (or 1); left (or 1); bottom (or 0); right (or 0) $ { ``: erase in a rectangle what isn't protected (EK-VT520-RM, DECSERA).
    pub const DECSERA: KnownKind = KnownKind(10019);
    /// `` extent 0-2 (or 0) * x ``: whether DECCARA and DECRARA change a stream of lines (0 and 1) or a rectangle (EK-VT520-RM, DECSACE).
    pub const DECSACE: KnownKind = KnownKind(10020);
    /// `` columns 0-255 (or 80) $ | ``: columns a page (EK-VT520-RM, DECSCPP).
    pub const DECSCPP: KnownKind = KnownKind(10021);
    /// `` display 0-1 (or 0) $ } ``: whether characters go to the screen or to the status line (EK-VT520-RM, DECSASD).
    pub const DECSASD: KnownKind = KnownKind(10022);
    /// `` line 0-2 (or 0) $ ~ ``: status line: none, the terminal's own, or one for programs (EK-VT520-RM, DECSSDT).
    pub const DECSSDT: KnownKind = KnownKind(10023);
    /// `` lines 0-255 (or 24) * | ``: lines on the screen (EK-VT520-RM, DECSNLS).
    pub const DECSNLS: KnownKind = KnownKind(10024);
    /// `` & x ``: enable the session (EK-VT520-RM, DECES).
    pub const DECES: KnownKind = KnownKind(10025);
    /// `` set 0-65535 (or 0) * p ``: character set of the ProPrinter (EK-VT520-RM, DECSPPCS).
    pub const DECSPPCS: KnownKind = KnownKind(10026);
    /// `` line 0-5 (or 0); speed 0-11 (or 0) * r ``: speed of a line (EK-VT520-RM, DECSCS).
    pub const DECSCS: KnownKind = KnownKind(10027);
    /// `` direction (or 0); kind (or 0); level (or 0) * s ``: flow control (EK-VT520-RM, DECSFC).
    pub const DECSFC: KnownKind = KnownKind(10028);
    /// `` port 0-2 (or 0); host (or 0) * u ``: communication port (EK-VT520-RM, DECSCP).
    pub const DECSCP: KnownKind = KnownKind(10029);
    /// `` macro 0-63 (or 0) * z ``: run a macro (EK-VT520-RM, DECINVM).
    pub const DECINVM: KnownKind = KnownKind(10030);
    /// `` key 0-8 (or 0); control 0-3 (or 0) * } ``: local function keys (EK-VT520-RM, DECLFKC).
    pub const DECLFKC: KnownKind = KnownKind(10031);
    /// `` confirmation 0-16383 (or 0) + p ``: secure reset (EK-VT520-RM, DECSR).
    pub const DECSR: KnownKind = KnownKind(10032);
    /// `` function 0-5 (or 0); control 0-2 (or 0) + q ``: local functions (EK-VT520-RM, DECELF).
    pub const DECELF: KnownKind = KnownKind(10033);
    /// `` key (or 0); report (or 0) + r ``: reports of modifier keys (EK-VT520-RM, DECSMKR).
    pub const DECSMKR: KnownKind = KnownKind(10034);
    /// `` port (or 0); bits (or 0); parity (or 0); stop (or 0) + w ``: parameters of a port (EK-VT520-RM, DECSPP).
    pub const DECSPP: KnownKind = KnownKind(10035);
    /// `` table 0-3 (or 0) ) { ``: colour look-up table (EK-VT520-RM, DECSTGLT).
    pub const DECSTGLT: KnownKind = KnownKind(10036);
    /// `` hour 0-23 (or 0); minute 0-59 (or 0) , p ``: time of day (EK-VT520-RM, DECLTOD).
    pub const DECLTOD: KnownKind = KnownKind(10037);
    /// `` terminal 0-10 (or 0) , q ``: the terminal ID that is told (EK-VT520-RM, DECTID).
    pub const DECTID: KnownKind = KnownKind(10038);
    /// `` session 0-1 (or 0) , y ``: update the session (EK-VT520-RM, DECUS).
    pub const DECUS: KnownKind = KnownKind(10039);
    /// `` style 0-2 (or 0) , { ``: how zero is written (EK-VT520-RM, DECSZS).
    pub const DECSZS: KnownKind = KnownKind(10040);
    /// `` item 1-2; foreground 0-255; background 0-255 , | ``: colours of text (EK-VT520-RM, DECAC).
    pub const DECAC: KnownKind = KnownKind(10041);
    /// `` attribute 0-15; foreground 0-255; background 0-255 , } ``: colours of an attribute (EK-VT520-RM, DECATC).
    pub const DECATC: KnownKind = KnownKind(10042);
    /// `` volume 0-7; duration 0-255; note 0-25 (or 0); more 0-25 .. , ~ ``: play notes (EK-VT520-RM, DECPS).
    pub const DECPS: KnownKind = KnownKind(10043);
    /// `` minutes 0-60 (or 15) - q ``: time to the screen saver (EK-VT520-RM, DECCRTST).
    pub const DECCRTST: KnownKind = KnownKind(10044);
    /// `` minutes 0-60 (or 15) - r ``: time to saving energy (EK-VT520-RM, DECSEST).
    pub const DECSEST: KnownKind = KnownKind(10045);
    /// `` rate 0-30 (or 30) - p ``: rate of auto-repeat (EK-VT520-RM, DECARR).
    pub const DECARR: KnownKind = KnownKind(10046);
    /// `` volume 0-8 (or 0) SP r ``: volume of the key click (EK-VT520-RM, DECSKCV).
    pub const DECSKCV: KnownKind = KnownKind(10047);
    /// `` volume 0-8 (or 0) SP t ``: volume of the warning bell (EK-VT520-RM, DECSWBV).
    pub const DECSWBV: KnownKind = KnownKind(10048);
    /// `` volume 0-8 (or 0) SP u ``: volume of the margin bell (EK-VT520-RM, DECSMBV).
    pub const DECSMBV: KnownKind = KnownKind(10049);
    /// `` style 0-1 (or 0) SP v ``: style of the lock key (EK-VT520-RM, DECSLCK).
    pub const DECSLCK: KnownKind = KnownKind(10050);
    /// `` speed 0-9 (or 0) SP p ``: speed of scrolling (EK-VT520-RM, DECSSCLS).
    pub const DECSSCLS: KnownKind = KnownKind(10051);
    /// `` language 0-65535 (or 0); layout 0-65535 (or 0) SP } ``: language of the keyboard (EK-VT520-RM, DECKBD).
    pub const DECKBD: KnownKind = KnownKind(10052);
    /// `` mode 0-7 (or 0) SP ~ ``: terminal mode emulation (EK-VT520-RM, DECTME).
    pub const DECTME: KnownKind = KnownKind(10053);
    /// `` ? 5 W ``: tab stops at every 8 columns (EK-VT520-RM, DECST8C).
    pub const DECST8C: KnownKind = KnownKind(10054);
    /// `` ? 1 i ``: print the line of the cursor (EK-VT520-RM, MC).
    pub const MC_PRINT_CURSOR_LINE: KnownKind = KnownKind(10055);
    /// `` ? 4 i ``: auto print off (EK-VT520-RM, MC).
    pub const MC_AUTO_PRINT_OFF: KnownKind = KnownKind(10056);
    /// `` ? 5 i ``: auto print on (EK-VT520-RM, MC).
    pub const MC_AUTO_PRINT_ON: KnownKind = KnownKind(10057);
    /// `` ? 10 i ``: print the whole display (xterm ctlseqs, MC).
    pub const MC_PRINT_DISPLAY: KnownKind = KnownKind(10058);
    /// `` ? 11 i ``: print all pages (xterm ctlseqs, MC).
    pub const MC_PRINT_ALL_PAGES: KnownKind = KnownKind(10059);
    /// `` 0 (or 0) q ``: all lights of the keyboard off (EK-VT520-RM, DECLL).
    pub const DECLL_ALL_OFF: KnownKind = KnownKind(10060);
    /// `` 1 q ``: num lock light on (EK-VT520-RM, DECLL).
    pub const DECLL_NUM_LOCK_ON: KnownKind = KnownKind(10061);
    /// `` 2 q ``: caps lock light on (EK-VT520-RM, DECLL).
    pub const DECLL_CAPS_LOCK_ON: KnownKind = KnownKind(10062);
    /// `` 3 q ``: scroll lock light on (EK-VT520-RM, DECLL).
    pub const DECLL_SCROLL_LOCK_ON: KnownKind = KnownKind(10063);
    /// `` 21 q ``: num lock light off (xterm ctlseqs, DECLL).
    pub const DECLL_NUM_LOCK_OFF: KnownKind = KnownKind(10064);
    /// `` 22 q ``: caps lock light off (xterm ctlseqs, DECLL).
    pub const DECLL_CAPS_LOCK_OFF: KnownKind = KnownKind(10065);
    /// `` 23 q ``: scroll lock light off (xterm ctlseqs, DECLL).
    pub const DECLL_SCROLL_LOCK_OFF: KnownKind = KnownKind(10066);
    /// `` kind 2-4; test (or 0); more .. y ``: self-test (EK-VT520-RM, DECTST).
    pub const DECTST: KnownKind = KnownKind(10067);
    /// `` lines 24-47 t ``: lines a page, up to 47 (EK-VT520-RM, DECSLPP).
    pub const DECSLPP_UP_TO_47: KnownKind = KnownKind(10068);
    /// `` lines 49-255 t ``: lines a page, from 49 on (EK-VT520-RM, DECSLPP).
    pub const DECSLPP_FROM_49: KnownKind = KnownKind(10069);
    /// `` 48 t ``: 48 lines a page (EK-VT520-RM, DECSLPP).
    pub const DECSLPP_48: KnownKind = KnownKind(10070);
    /// `` extent 0-2 (or 0) N ``: erase in the field (ECMA-48, 8.3.40).
    pub const EF: KnownKind = KnownKind(10071);
    /// `` extent 0-2 O ``: erase in the area (ECMA-48, 8.3.37).
    pub const EA: KnownKind = KnownKind(10072);
    /// `` extent 0-4 (or 0) Q ``: select the extent of editing (ECMA-48, 8.3.115).
    pub const SEE: KnownKind = KnownKind(10073);
    /// `` pages (or 1) U ``: pages forward (ECMA-48, 8.3.87).
    pub const NP: KnownKind = KnownKind(10074);
    /// `` pages (or 1) V ``: pages back (ECMA-48, 8.3.95).
    pub const PP: KnownKind = KnownKind(10075);
    /// `` string 0-1 (or 0) [ ``: start or end a reversed string (ECMA-48, 8.3.137).
    pub const SRS: KnownKind = KnownKind(10076);
    /// `` text 0-5 (or 0) \ ``: parallel texts (ECMA-48, 8.3.99).
    pub const PTX: KnownKind = KnownKind(10077);
    /// `` direction 0-1 (or 0) ^ ``: implicit direction of movement (ECMA-48, 8.3.120).
    pub const SIMD: KnownKind = KnownKind(10078);
    /// `` kind 0-11 (or 0) o ``: qualify an area (ECMA-48, 8.3.25).
    pub const DAQ: KnownKind = KnownKind(10079);
    /// `` string 0-1 (or 0) ] ``: start or end a directed string (ECMA-48, 8.3.114).
    pub const SDS: KnownKind = KnownKind(10080);
    /// `` 0 (or 0) i ``: print the screen (ECMA-48, 8.3.82).
    pub const MC_PRINT_SCREEN: KnownKind = KnownKind(10081);
    /// `` 1 i ``: transfer from the first device (ECMA-48, 8.3.82).
    pub const MC_FROM_FIRST_DEVICE: KnownKind = KnownKind(10082);
    /// `` 2 i ``: transfer to the second device (ECMA-48, 8.3.82).
    pub const MC_TO_SECOND_DEVICE: KnownKind = KnownKind(10083);
    /// `` 3 i ``: transfer from the second device (ECMA-48, 8.3.82).
    pub const MC_FROM_SECOND_DEVICE: KnownKind = KnownKind(10084);
    /// `` 4 i ``: printer controller off (ECMA-48, 8.3.82).
    pub const MC_PRINTER_CONTROLLER_OFF: KnownKind = KnownKind(10085);
    /// `` 5 i ``: printer controller on (ECMA-48, 8.3.82).
    pub const MC_PRINTER_CONTROLLER_ON: KnownKind = KnownKind(10086);
    /// `` 6 i ``: relay to the second device off (ECMA-48, 8.3.82).
    pub const MC_SECOND_RELAY_OFF: KnownKind = KnownKind(10087);
    /// `` 7 i ``: relay to the second device on (ECMA-48, 8.3.82).
    pub const MC_SECOND_RELAY_ON: KnownKind = KnownKind(10088);
    /// `` 0 n ``: answer: ready, no malfunction (ECMA-48, 8.3.35).
    pub const DSR_READY: KnownKind = KnownKind(10089);
    /// `` 1 n ``: answer: busy, ask again (ECMA-48, 8.3.35).
    pub const DSR_BUSY_ASK_AGAIN: KnownKind = KnownKind(10090);
    /// `` 2 n ``: answer: busy, another answer follows (ECMA-48, 8.3.35).
    pub const DSR_BUSY_ANSWER_FOLLOWS: KnownKind = KnownKind(10091);
    /// `` 3 n ``: answer: malfunction, ask again (ECMA-48, 8.3.35).
    pub const DSR_MALFUNCTION_ASK_AGAIN: KnownKind = KnownKind(10092);
    /// `` 4 n ``: answer: malfunction, another answer follows (ECMA-48, 8.3.35).
    pub const DSR_MALFUNCTION_ANSWER_FOLLOWS: KnownKind = KnownKind(10093);
    /// `` columns (or 1) SP @ ``: scroll left (ECMA-48, 8.3.121).
    pub const SL: KnownKind = KnownKind(10094);
    /// `` columns (or 1) SP A ``: scroll right (ECMA-48, 8.3.135).
    pub const SR: KnownKind = KnownKind(10095);
    /// `` height (or 100); width (or 100) SP B ``: size of characters, in percent (ECMA-48, 8.3.55).
    pub const GSM: KnownKind = KnownKind(10096);
    /// `` size SP C ``: size of characters (ECMA-48, 8.3.56).
    pub const GSS: KnownKind = KnownKind(10097);
    /// `` font 0-9 (or 0); set (or 0) SP D ``: a font (ECMA-48, 8.3.53).
    pub const FNT: KnownKind = KnownKind(10098);
    /// `` width SP E ``: width of a thin space (ECMA-48, 8.3.157).
    pub const TSS: KnownKind = KnownKind(10099);
    /// `` how 0-8 (or 0) SP F ``: justify the text (ECMA-48, 8.3.73).
    pub const JFY: KnownKind = KnownKind(10100);
    /// `` lines; characters SP G ``: spacing of lines and characters (ECMA-48, 8.3.132).
    pub const SPI: KnownKind = KnownKind(10101);
    /// `` how 0-6 (or 0) SP H ``: place the text of the line (ECMA-48, 8.3.102).
    pub const QUAD: KnownKind = KnownKind(10102);
    /// `` unit 0-8 (or 0) SP I ``: unit of size (ECMA-48, 8.3.139).
    pub const SSU: KnownKind = KnownKind(10103);
    /// `` format 0-15 (or 0) SP J ``: format of the page (ECMA-48, 8.3.91).
    pub const PFS: KnownKind = KnownKind(10104);
    /// `` spacing 0-6 (or 0) SP K ``: character spacing (ECMA-48, 8.3.118).
    pub const SHS: KnownKind = KnownKind(10105);
    /// `` spacing 0-9 (or 0) SP L ``: line spacing (ECMA-48, 8.3.149).
    pub const SVS: KnownKind = KnownKind(10106);
    /// `` repertoire SP M ``: graphic subrepertoire (ECMA-48, 8.3.66).
    pub const IGS: KnownKind = KnownKind(10107);
    /// `` kind SP O ``: what device control strings are (ECMA-48, 8.3.65).
    pub const IDCS: KnownKind = KnownKind(10108);
    /// `` page (or 1) SP P ``: to a page (ECMA-48, 8.3.96).
    pub const PPA: KnownKind = KnownKind(10109);
    /// `` pages (or 1) SP Q ``: pages forward, place kept (ECMA-48, 8.3.98).
    pub const PPR: KnownKind = KnownKind(10110);
    /// `` pages (or 1) SP R ``: pages back, place kept (ECMA-48, 8.3.97).
    pub const PPB: KnownKind = KnownKind(10111);
    /// `` direction 0-7 (or 0); effect 0-2 (or 0) SP S ``: directions of lines and characters (ECMA-48, 8.3.130).
    pub const SPD: KnownKind = KnownKind(10112);
    /// `` height; width SP T ``: dimensions of the text area (ECMA-48, 8.3.36).
    pub const DTA: KnownKind = KnownKind(10113);
    /// `` column SP U ``: line home (ECMA-48, 8.3.122).
    pub const SLH: KnownKind = KnownKind(10114);
    /// `` column SP V ``: line limit (ECMA-48, 8.3.123).
    pub const SLL: KnownKind = KnownKind(10115);
    /// `` key SP W ``: a function key (ECMA-48, 8.3.52).
    pub const FNK: KnownKind = KnownKind(10116);
    /// `` quality 0-2 (or 0) SP X ``: print quality (ECMA-48, 8.3.134).
    pub const SPQR: KnownKind = KnownKind(10117);
    /// `` bin (or 0); stacker (or 0) SP Y ``: sheet eject and feed (ECMA-48, 8.3.116).
    pub const SEF: KnownKind = KnownKind(10118);
    /// `` how 0-2 (or 0) SP Z ``: expand or contract characters (ECMA-48, 8.3.90).
    pub const PEC: KnownKind = KnownKind(10119);
    /// `` width SP [ ``: width of a space (ECMA-48, 8.3.140).
    pub const SSW: KnownKind = KnownKind(10120);
    /// `` width (or 0) SP \ ``: additional character separation (ECMA-48, 8.3.107).
    pub const SACS: KnownKind = KnownKind(10121);
    /// `` variant 0-22 (or 0) SP ] ``: alternative presentation (ECMA-48, 8.3.108).
    pub const SAPV: KnownKind = KnownKind(10122);
    /// `` stop SP ^ ``: selective tabulation (ECMA-48, 8.3.144).
    pub const STAB: KnownKind = KnownKind(10123);
    /// `` how 0-2 (or 0) SP _ ``: combine characters (ECMA-48, 8.3.54).
    pub const GCC: KnownKind = KnownKind(10124);
    /// `` column SP ` ``: tab stop at the trailing edge (ECMA-48, 8.3.153).
    pub const TATE: KnownKind = KnownKind(10125);
    /// `` column SP a ``: tab stop at the leading edge (ECMA-48, 8.3.152).
    pub const TALE: KnownKind = KnownKind(10126);
    /// `` column SP b ``: centred tab stop (ECMA-48, 8.3.151).
    pub const TAC: KnownKind = KnownKind(10127);
    /// `` column; character (or 32) SP c ``: tab stop centred on a character (ECMA-48, 8.3.155).
    pub const TCC: KnownKind = KnownKind(10128);
    /// `` column SP d ``: remove a tab stop (ECMA-48, 8.3.156).
    pub const TSR: KnownKind = KnownKind(10129);
    /// `` turn 0-7 (or 0) SP e ``: orientation of characters (ECMA-48, 8.3.110).
    pub const SCO: KnownKind = KnownKind(10130);
    /// `` width (or 0) SP f ``: reduced character separation (ECMA-48, 8.3.136).
    pub const SRCS: KnownKind = KnownKind(10131);
    /// `` spacing SP g ``: character spacing (ECMA-48, 8.3.112).
    pub const SCS: KnownKind = KnownKind(10132);
    /// `` spacing SP h ``: line spacing (ECMA-48, 8.3.124).
    pub const SLS: KnownKind = KnownKind(10133);
    /// `` line SP i ``: page home (ECMA-48, 8.3.131).
    pub const SPH: KnownKind = KnownKind(10134);
    /// `` line SP j ``: page limit (ECMA-48, 8.3.133).
    pub const SPL: KnownKind = KnownKind(10135);
    /// `` attribute .. # { ``: push attributes, all where none is named (xterm ctlseqs, XTPUSHSGR).
    pub const XTPUSHSGR: KnownKind = KnownKind(10136);
    /// `` attribute .. # p ``: push attributes, all where none is named (xterm ctlseqs, XTPUSHSGR).
    pub const XTPUSHSGR_P: KnownKind = KnownKind(10137);
    /// `` # } ``: pop the attributes (xterm ctlseqs, XTPOPSGR).
    pub const XTPOPSGR: KnownKind = KnownKind(10138);
    /// `` # q ``: pop the attributes (xterm ctlseqs, XTPOPSGR).
    pub const XTPOPSGR_Q: KnownKind = KnownKind(10139);
    /// `` place 0-10 (or 0) # P ``: push the colours (xterm ctlseqs, XTPUSHCOLORS).
    pub const XTPUSHCOLORS: KnownKind = KnownKind(10140);
    /// `` place 0-10 (or 0) # Q ``: pop the colours (xterm ctlseqs, XTPOPCOLORS).
    pub const XTPOPCOLORS: KnownKind = KnownKind(10141);
    /// `` bits 0-63 (or 0) # y ``: how checksums are made (xterm ctlseqs, XTCHECKSUM).
    pub const XTCHECKSUM: KnownKind = KnownKind(10142);
    /// `` > resource 0-7 (or 2) n ``: modifiers of keys off (xterm ctlseqs, CSI > Ps n).
    pub const XTMODKEYS: KnownKind = KnownKind(10143);
    /// `` > hides 0-3 (or 1) p ``: when the pointer is hidden (xterm ctlseqs, XTSMPOINTER).
    pub const XTSMPOINTER: KnownKind = KnownKind(10144);
    /// `` > shift 0-3 (or 0) s ``: whether shift is a modifier in mouse reports (xterm ctlseqs, XTSHIFTESCAPE).
    pub const XTSHIFTESCAPE: KnownKind = KnownKind(10145);
    /// `` > form 0-3; more 0-3 .. t ``: set the form of titles (xterm ctlseqs, XTSMTITLE).
    pub const XTSMTITLE: KnownKind = KnownKind(10146);
    /// `` > form 0-3; more 0-3 .. T ``: reset the form of titles (xterm ctlseqs, XTRMTITLE).
    pub const XTRMTITLE: KnownKind = KnownKind(10147);
    /// `` function; column; line; first; last T ``: highlight while the mouse is moved (xterm ctlseqs, XTHIMOUSE).
    pub const XTHIMOUSE: KnownKind = KnownKind(10148);
    /// `` lines 2- ^ ``: scroll down (xterm ctlseqs, CSI Ps ^).
    pub const SD: KnownKind = KnownKind(10149);
    /// `` 22 t ``: push the icon name and the window title (xterm ctlseqs, XTWINOPS).
    pub const XTWINOPS_PUSH_TITLES: KnownKind = KnownKind(10150);
    /// `` 23 t ``: pop the icon name and the window title (xterm ctlseqs, XTWINOPS).
    pub const XTWINOPS_POP_TITLES: KnownKind = KnownKind(10151);
    /// `` 10 i ``: HTML copy of the screen (xterm ctlseqs, MC).
    pub const MC_HTML_COPY: KnownKind = KnownKind(10152);
    /// `` 11 i ``: SVG copy of the screen (xterm ctlseqs, MC).
    pub const MC_SVG_COPY: KnownKind = KnownKind(10153);
    /// `` lines (or 1) + T ``: scroll down out of the scrollback (kitty, Unscrolling the screen).
    pub const UNSCROLL: KnownKind = KnownKind(10154);
    /// `` 1; colour ] ``: colour for underline (console_codes(4)).
    pub const LINUX_UNDERLINE_COLOR: KnownKind = KnownKind(10155);
    /// `` 2; colour ] ``: colour for faint (console_codes(4)).
    pub const LINUX_FAINT_COLOR: KnownKind = KnownKind(10156);
    /// `` 8 ] ``: make the current colours the default (console_codes(4)).
    pub const LINUX_DEFAULT_COLORS: KnownKind = KnownKind(10157);
    /// `` 9; minutes ] ``: minutes to a blank screen (console_codes(4)).
    pub const LINUX_BLANK_MINUTES: KnownKind = KnownKind(10158);
    /// `` 10; pitch ] ``: pitch of the bell, in hertz (console_codes(4)).
    pub const LINUX_BELL_PITCH: KnownKind = KnownKind(10159);
    /// `` 11; length ] ``: length of the bell, in milliseconds (console_codes(4)).
    pub const LINUX_BELL_LENGTH: KnownKind = KnownKind(10160);
    /// `` 12; console ] ``: show a console (console_codes(4)).
    pub const LINUX_SHOW_CONSOLE: KnownKind = KnownKind(10161);
    /// `` 13 ] ``: unblank the screen (console_codes(4)).
    pub const LINUX_UNBLANK: KnownKind = KnownKind(10162);
    /// `` 14; minutes ] ``: minutes to powering down the screen (console_codes(4)).
    pub const LINUX_POWER_DOWN_MINUTES: KnownKind = KnownKind(10163);
    /// `` 15 ] ``: show the console before (console_codes(4)).
    pub const LINUX_CONSOLE_BEFORE: KnownKind = KnownKind(10164);
    /// `` 16; interval ] ``: interval of the cursor's blinking, in milliseconds (console_codes(4)).
    pub const LINUX_BLINK_INTERVAL: KnownKind = KnownKind(10165);
    /// `` ? 0 c ``: the cursor's look: as it was (Linux, VGA softcursor).
    pub const LINUX_CURSOR_AS_IT_WAS: KnownKind = KnownKind(10166);
    /// `` ? look 2-3 c ``: the cursor's look (Linux, VGA softcursor).
    pub const LINUX_CURSOR_2_TO_3: KnownKind = KnownKind(10167);
    /// `` ? 5 c ``: the cursor's look: two thirds (Linux, VGA softcursor).
    pub const LINUX_CURSOR_TWO_THIRDS: KnownKind = KnownKind(10168);
    /// `` ? look 8-11 c ``: the cursor's look (Linux, VGA softcursor).
    pub const LINUX_CURSOR_8_TO_11: KnownKind = KnownKind(10169);
    /// `` ? look 16-60; turned 0-255 (or 0); set 0-255 (or 0) c ``: the cursor's look (Linux, VGA softcursor).
    pub const LINUX_CURSOR_16_TO_60: KnownKind = KnownKind(10170);
    /// `` ? look 112-127; turned 0-255 (or 0); set 0-255 (or 0) c ``: the cursor's look (Linux, VGA softcursor).
    pub const LINUX_CURSOR_112_TO_127: KnownKind = KnownKind(10171);
    /// `` " v ``: ask which part of the page is shown (EK-VT520-RM, DECRQDE).
    pub const DECRQDE: KnownKind = KnownKind(10172);
    /// `` what 0-1 (or 0) ' | ``: ask for the locator's position (xterm ctlseqs, DECRQLP).
    pub const DECRQLP: KnownKind = KnownKind(10173);
    /// `` 1 $ u ``: ask for the terminal's state (EK-VT520-RM, DECRQTSR).
    pub const DECRQTSR_STATE: KnownKind = KnownKind(10174);
    /// `` 2; space 0-2 (or 0) $ u ``: ask for the colour table (EK-VT520-RM, DECRQTSR).
    pub const DECRQTSR_COLORS: KnownKind = KnownKind(10175);
    /// `` 1 $ w ``: ask for the cursor's state (EK-VT520-RM, DECRQPSR).
    pub const DECRQPSR_CURSOR: KnownKind = KnownKind(10176);
    /// `` 2 $ w ``: ask for the tab stops (EK-VT520-RM, DECRQPSR).
    pub const DECRQPSR_TAB_STOPS: KnownKind = KnownKind(10177);
    /// `` & u ``: ask for the user's supplemental set (xterm ctlseqs, DECRQUPSS).
    pub const DECRQUPSS: KnownKind = KnownKind(10178);
    /// `` ? 6 n ``: ask for the cursor's position and page (EK-VT520-RM, DSR).
    pub const DECXCPR_ASK: KnownKind = KnownKind(10179);
    /// `` ? 15 n ``: ask for the printer's status (EK-VT520-RM, DSR).
    pub const DSR_ASK_PRINTER: KnownKind = KnownKind(10180);
    /// `` ? 25 n ``: ask whether user-defined keys are locked (EK-VT520-RM, DSR).
    pub const DSR_ASK_USER_KEYS: KnownKind = KnownKind(10181);
    /// `` ? 26 n ``: ask for the keyboard's language (EK-VT520-RM, DSR).
    pub const DSR_ASK_KEYBOARD: KnownKind = KnownKind(10182);
    /// `` ? 53 n ``: ask for the locator's status, or answer that it is there (EK-VT520-RM, DSR).
    pub const DSR_LOCATOR: KnownKind = KnownKind(10183);
    /// `` ? 55 n ``: ask for the locator's status (xterm ctlseqs, DSR).
    pub const DSR_ASK_LOCATOR: KnownKind = KnownKind(10184);
    /// `` ? 56 n ``: ask for the locator's type (xterm ctlseqs, DSR).
    pub const DSR_ASK_LOCATOR_TYPE: KnownKind = KnownKind(10185);
    /// `` ? 62 n ``: ask for the room for macros (EK-VT520-RM, DSR).
    pub const DECMSR_ASK: KnownKind = KnownKind(10186);
    /// `` ? 63; request (or 0) n ``: ask for the checksum of the memory (EK-VT520-RM, DSR).
    pub const DECCKSR: KnownKind = KnownKind(10187);
    /// `` ? 75 n ``: ask for the integrity of data (EK-VT520-RM, DSR).
    pub const DSR_ASK_DATA: KnownKind = KnownKind(10188);
    /// `` ? 85 n ``: ask for the sessions (EK-VT520-RM, DSR).
    pub const DSR_ASK_SESSIONS: KnownKind = KnownKind(10189);
    /// `` ? 996 n ``: ask for the colour scheme (contour, Color Palette Update Notifications).
    pub const COLOR_SCHEME_ASK: KnownKind = KnownKind(10190);
    /// `` ? resource 0-7 m ``: ask for the modifiers of keys (xterm ctlseqs, XTQMODKEYS).
    pub const XTQMODKEYS: KnownKind = KnownKind(10191);
    /// `` ? resource 0-7 g ``: ask for the format of keys (xterm ctlseqs, XTQFMTKEYS).
    pub const XTQFMTKEYS: KnownKind = KnownKind(10192);
    /// `` top (or 1); left (or 1); bottom (or 0); right (or 0) # | ``: ask for the attributes in a rectangle (xterm ctlseqs, XTREPORTSGR).
    pub const XTREPORTSGR: KnownKind = KnownKind(10193);
    /// `` # R ``: ask for the stack of colours (xterm ctlseqs, XTREPORTCOLORS).
    pub const XTREPORTCOLORS: KnownKind = KnownKind(10194);
    /// `` # S ``: ask for the place on the stack of titles (xterm ctlseqs, XTTITLEPOS).
    pub const XTTITLEPOS: KnownKind = KnownKind(10195);
    /// `` mode 0-65535; state 0-4 $ y ``: the state of a mode (EK-VT520-RM, DECRPM).
    pub const DECRPM: KnownKind = KnownKind(10196);
    /// `` ? mode; state 0-4 $ y ``: the state of a private mode (EK-VT520-RM, DECRPM).
    pub const DECRPM_PRIVATE: KnownKind = KnownKind(10197);
    /// `` lines; columns; left (or 1); top (or 1); page (or 1) " w ``: the part of the page that is shown (EK-VT520-RM, DECRPDE).
    pub const DECRPDE: KnownKind = KnownKind(10198);
    /// `` event 0-10; buttons 0-15 (or 0); line (or 0); column (or 0); page (or 0) & w ``: the locator's position (xterm ctlseqs, DECRQLP).
    pub const DECLRP: KnownKind = KnownKind(10199);
    /// `` confirmation 0-16383 (or 0) * q ``: confirmation of a secure reset (EK-VT520-RM, DECSRC).
    pub const DECSRC: KnownKind = KnownKind(10200);
    /// `` blocks * { ``: room for macros, in blocks of 16 bytes (EK-VT520-RM, DECMSR).
    pub const DECMSR: KnownKind = KnownKind(10201);
    /// `` ? line; column; page (or 1) R ``: the cursor's position and page (EK-VT520-RM, DECXCPR).
    pub const DECXCPR: KnownKind = KnownKind(10202);
    /// `` ? 10 n ``: printer ready (EK-VT520-RM, DSR).
    pub const DSR_PRINTER_READY: KnownKind = KnownKind(10203);
    /// `` ? 11 n ``: printer not ready (EK-VT520-RM, DSR).
    pub const DSR_PRINTER_NOT_READY: KnownKind = KnownKind(10204);
    /// `` ? 13 n ``: no printer (EK-VT520-RM, DSR).
    pub const DSR_NO_PRINTER: KnownKind = KnownKind(10205);
    /// `` ? 18 n ``: printer busy (EK-VT520-RM, DSR).
    pub const DSR_PRINTER_BUSY: KnownKind = KnownKind(10206);
    /// `` ? 19 n ``: printer with another session (EK-VT520-RM, DSR).
    pub const DSR_PRINTER_OF_ANOTHER_SESSION: KnownKind = KnownKind(10207);
    /// `` ? 20 n ``: user-defined keys unlocked (EK-VT520-RM, DSR).
    pub const DSR_USER_KEYS_UNLOCKED: KnownKind = KnownKind(10208);
    /// `` ? 21 n ``: user-defined keys locked (EK-VT520-RM, DSR).
    pub const DSR_USER_KEYS_LOCKED: KnownKind = KnownKind(10209);
    /// `` ? 27; language (or 0); status (or 0); kind (or 0) n ``: the keyboard's language (EK-VT520-RM, DSR).
    pub const DSR_KEYBOARD: KnownKind = KnownKind(10210);
    /// `` ? 50 n ``: no locator (EK-VT520-RM, DSR).
    pub const DSR_NO_LOCATOR: KnownKind = KnownKind(10211);
    /// `` ? 57; kind (or 0) n ``: the locator's type (xterm ctlseqs, DSR).
    pub const DSR_LOCATOR_TYPE: KnownKind = KnownKind(10212);
    /// `` ? 70 n ``: no data lost (EK-VT520-RM, DSR).
    pub const DSR_NO_DATA_LOST: KnownKind = KnownKind(10213);
    /// `` ? 71 n ``: malfunction, or power cycle (EK-VT520-RM, DSR).
    pub const DSR_DATA_MALFUNCTION: KnownKind = KnownKind(10214);
    /// `` ? 73 n ``: nothing to tell of data (EK-VT520-RM, DSR).
    pub const DSR_NOTHING_OF_DATA: KnownKind = KnownKind(10215);
    /// `` ? 83 n ``: one session (EK-VT520-RM, DSR).
    pub const DSR_ONE_SESSION: KnownKind = KnownKind(10216);
    /// `` ? 997; scheme 0-2 n ``: 1 a dark, 2 a light colour scheme (contour, Color Palette Update Notifications).
    pub const COLOR_SCHEME: KnownKind = KnownKind(10217);
    /// `` ? 4; 6 c ``: VT132 with advanced video and graphics (xterm ctlseqs, DA).
    pub const DA1_VT132: KnownKind = KnownKind(10218);
    /// `` ? 7 c ``: VT131 (xterm ctlseqs, DA).
    pub const DA1_VT131: KnownKind = KnownKind(10219);
    /// `` ? 12; options c ``: VT125 (xterm ctlseqs, DA).
    pub const DA1_VT125: KnownKind = KnownKind(10220);
    /// `` ? 61; extension .. c ``: VT100 class, with its extensions (EK-VT520-RM, DA1).
    pub const DA1_VT100: KnownKind = KnownKind(10221);
    /// `` ? 65; extension .. c ``: VT500 class, with its extensions (EK-VT520-RM, DA1).
    pub const DA1_VT500: KnownKind = KnownKind(10222);
    /// `` > kind; firmware; options (or 0) c ``: type, version of the firmware, options (EK-VT520-RM, DA2).
    pub const DA2: KnownKind = KnownKind(10223);
    /// `` kind 2-3; parity 1-5; bits 1-2; sends; receives; clock; flags x ``: parameters of the serial line (VT100 User Guide, DECREQTPARM).
    pub const DECREPTPARM: KnownKind = KnownKind(10224);
    /// `` 9; height 4-; width t ``: size of the display, in cells (xterm ctlseqs, XTWINOPS).
    pub const XTWINOPS_DISPLAY_SIZE: KnownKind = KnownKind(10225);
    /// `` 48; lines; columns; height (or 0); width (or 0) t ``: size of the window, in cells and pixels (kitty, In-band resize notifications).
    pub const IN_BAND_RESIZE: KnownKind = KnownKind(10226);
    /// `` > resource 0-7; format (or 0) f ``: set the format of keys, or its answer (xterm ctlseqs, XTFMTKEYS).
    pub const XTFMTKEYS: KnownKind = KnownKind(10227);
    /// `` O ``: focus lost (xterm ctlseqs, FocusIn/FocusOut).
    pub const FOCUS_LOST: KnownKind = KnownKind(10228);
    /// `` 200 ~ ``: start of pasted text (xterm ctlseqs, Bracketed Paste Mode).
    pub const PASTE_START: KnownKind = KnownKind(10229);
    /// `` 201 ~ ``: end of pasted text (xterm ctlseqs, Bracketed Paste Mode).
    pub const PASTE_END: KnownKind = KnownKind(10230);
    /// `` code 32-255; column; line M ``: report of the mouse in urxvt's form (urxvt(7), Mode 1015).
    pub const MOUSE_URXVT: KnownKind = KnownKind(10231);
    /// `` virtual; scan; character; pressed 0-1; held (or 0); times (or 1) _ ``: a key by Win32's record (Windows Terminal, spec 4999).
    pub const KEY_WIN32: KnownKind = KnownKind(10232);
    /// `` 27; modifiers 1-256; character ~ ``: a key by its character (modifyOtherKeys) (xterm ctlseqs, Alt and Meta Keys).
    pub const KEY_MODIFY_OTHER_KEYS: KnownKind = KnownKind(10233);
    /// `` character; modifiers 1-256 (or 1) u ``: a key by its character (kitty; formatOtherKeys of xterm) (kitty, Comprehensive keyboard handling).
    pub const KEY_CHARACTER: KnownKind = KnownKind(10234);
    /// `` 1; modifiers 2-256 A ``: Up, with modifiers (xterm ctlseqs, PC-Style Function Keys).
    pub const KEY_MODIFIED_UP: KnownKind = KnownKind(10235);
    /// `` 1; modifiers 2-256 B ``: Down, with modifiers (xterm ctlseqs, PC-Style Function Keys).
    pub const KEY_MODIFIED_DOWN: KnownKind = KnownKind(10236);
    /// `` 1; modifiers 2-256 C ``: Right, with modifiers (xterm ctlseqs, PC-Style Function Keys).
    pub const KEY_MODIFIED_RIGHT: KnownKind = KnownKind(10237);
    /// `` 1; modifiers 2-256 D ``: Left, with modifiers (xterm ctlseqs, PC-Style Function Keys).
    pub const KEY_MODIFIED_LEFT: KnownKind = KnownKind(10238);
    /// `` 1; modifiers 2-256 E ``: Begin, with modifiers (xterm ctlseqs, PC-Style Function Keys).
    pub const KEY_MODIFIED_BEGIN: KnownKind = KnownKind(10239);
    /// `` 1; modifiers 2-256 F ``: End, with modifiers (xterm ctlseqs, PC-Style Function Keys).
    pub const KEY_MODIFIED_END: KnownKind = KnownKind(10240);
    /// `` 1; modifiers 2-256 P ``: F1, with modifiers (xterm ctlseqs, PC-Style Function Keys).
    pub const KEY_MODIFIED_F1: KnownKind = KnownKind(10241);
    /// `` 1; modifiers 2-256 Q ``: F2, with modifiers (xterm ctlseqs, PC-Style Function Keys).
    pub const KEY_MODIFIED_F2: KnownKind = KnownKind(10242);
    /// `` 1; modifiers 2-256 S ``: F4, with modifiers (xterm ctlseqs, PC-Style Function Keys).
    pub const KEY_MODIFIED_F4: KnownKind = KnownKind(10243);
    /// `` 1; modifiers 1-256 (or 1) ~ ``: Home (xterm ctlseqs, PC-Style Function Keys).
    pub const KEY_HOME: KnownKind = KnownKind(10244);
    /// `` 2; modifiers 1-256 (or 1) ~ ``: Insert (xterm ctlseqs, PC-Style Function Keys).
    pub const KEY_INSERT: KnownKind = KnownKind(10245);
    /// `` 3; modifiers 1-256 (or 1) ~ ``: Delete (xterm ctlseqs, PC-Style Function Keys).
    pub const KEY_DELETE: KnownKind = KnownKind(10246);
    /// `` 4; modifiers 1-256 (or 1) ~ ``: End (xterm ctlseqs, PC-Style Function Keys).
    pub const KEY_END: KnownKind = KnownKind(10247);
    /// `` 5; modifiers 1-256 (or 1) ~ ``: Page Up (xterm ctlseqs, PC-Style Function Keys).
    pub const KEY_PAGE_UP: KnownKind = KnownKind(10248);
    /// `` 6; modifiers 1-256 (or 1) ~ ``: Page Down (xterm ctlseqs, PC-Style Function Keys).
    pub const KEY_PAGE_DOWN: KnownKind = KnownKind(10249);
    /// `` 7; modifiers 1-256 (or 1) ~ ``: Home (rxvt) (xterm ctlseqs, PC-Style Function Keys).
    pub const KEY_HOME_RXVT: KnownKind = KnownKind(10250);
    /// `` 8; modifiers 1-256 (or 1) ~ ``: End (rxvt) (xterm ctlseqs, PC-Style Function Keys).
    pub const KEY_END_RXVT: KnownKind = KnownKind(10251);
    /// `` 11; modifiers 1-256 (or 1) ~ ``: F1 (xterm ctlseqs, PC-Style Function Keys).
    pub const KEY_F1: KnownKind = KnownKind(10252);
    /// `` 12; modifiers 1-256 (or 1) ~ ``: F2 (xterm ctlseqs, PC-Style Function Keys).
    pub const KEY_F2: KnownKind = KnownKind(10253);
    /// `` 13; modifiers 1-256 (or 1) ~ ``: F3 (xterm ctlseqs, PC-Style Function Keys).
    pub const KEY_F3: KnownKind = KnownKind(10254);
    /// `` 14; modifiers 1-256 (or 1) ~ ``: F4 (xterm ctlseqs, PC-Style Function Keys).
    pub const KEY_F4: KnownKind = KnownKind(10255);
    /// `` 15; modifiers 1-256 (or 1) ~ ``: F5 (xterm ctlseqs, PC-Style Function Keys).
    pub const KEY_F5: KnownKind = KnownKind(10256);
    /// `` 17; modifiers 1-256 (or 1) ~ ``: F6 (xterm ctlseqs, PC-Style Function Keys).
    pub const KEY_F6: KnownKind = KnownKind(10257);
    /// `` 18; modifiers 1-256 (or 1) ~ ``: F7 (xterm ctlseqs, PC-Style Function Keys).
    pub const KEY_F7: KnownKind = KnownKind(10258);
    /// `` 19; modifiers 1-256 (or 1) ~ ``: F8 (xterm ctlseqs, PC-Style Function Keys).
    pub const KEY_F8: KnownKind = KnownKind(10259);
    /// `` 20; modifiers 1-256 (or 1) ~ ``: F9 (xterm ctlseqs, PC-Style Function Keys).
    pub const KEY_F9: KnownKind = KnownKind(10260);
    /// `` 21; modifiers 1-256 (or 1) ~ ``: F10 (xterm ctlseqs, PC-Style Function Keys).
    pub const KEY_F10: KnownKind = KnownKind(10261);
    /// `` 23; modifiers 1-256 (or 1) ~ ``: F11 (xterm ctlseqs, PC-Style Function Keys).
    pub const KEY_F11: KnownKind = KnownKind(10262);
    /// `` 24; modifiers 1-256 (or 1) ~ ``: F12 (xterm ctlseqs, PC-Style Function Keys).
    pub const KEY_F12: KnownKind = KnownKind(10263);
    /// `` 25; modifiers 1-256 (or 1) ~ ``: F13 (xterm ctlseqs, PC-Style Function Keys).
    pub const KEY_F13: KnownKind = KnownKind(10264);
    /// `` 26; modifiers 1-256 (or 1) ~ ``: F14 (xterm ctlseqs, PC-Style Function Keys).
    pub const KEY_F14: KnownKind = KnownKind(10265);
    /// `` 28; modifiers 1-256 (or 1) ~ ``: F15 (Help) (xterm ctlseqs, PC-Style Function Keys).
    pub const KEY_F15: KnownKind = KnownKind(10266);
    /// `` 29; modifiers 1-256 (or 1) ~ ``: F16 (Menu) (xterm ctlseqs, PC-Style Function Keys).
    pub const KEY_F16: KnownKind = KnownKind(10267);
    /// `` 31; modifiers 1-256 (or 1) ~ ``: F17 (xterm ctlseqs, PC-Style Function Keys).
    pub const KEY_F17: KnownKind = KnownKind(10268);
    /// `` 32; modifiers 1-256 (or 1) ~ ``: F18 (xterm ctlseqs, PC-Style Function Keys).
    pub const KEY_F18: KnownKind = KnownKind(10269);
    /// `` 33; modifiers 1-256 (or 1) ~ ``: F19 (xterm ctlseqs, PC-Style Function Keys).
    pub const KEY_F19: KnownKind = KnownKind(10270);
    /// `` 34; modifiers 1-256 (or 1) ~ ``: F20 (xterm ctlseqs, PC-Style Function Keys).
    pub const KEY_F20: KnownKind = KnownKind(10271);

    /// The name of its constant, such as `DECSED`.
    pub fn name(&self) -> &'static str {
        match self.0 {
            10001 => "DECSED",
            10002 => "DECSEL",
            10003 => "DECSCA",
            10004 => "DECSCL",
            10005 => "DECSRFR",
            10006 => "DECSTRL",
            10007 => "DECIC",
            10008 => "DECDC",
            10009 => "DECELR",
            10010 => "DECSLE",
            10011 => "DECEFR",
            10012 => "DECSDDT",
            10013 => "DECSPRTT",
            10014 => "DECCARA",
            10015 => "DECRARA",
            10016 => "DECCRA",
            10017 => "DECFRA",
            10018 => "DECERA",
            10019 => "DECSERA",
            10020 => "DECSACE",
            10021 => "DECSCPP",
            10022 => "DECSASD",
            10023 => "DECSSDT",
            10024 => "DECSNLS",
            10025 => "DECES",
            10026 => "DECSPPCS",
            10027 => "DECSCS",
            10028 => "DECSFC",
            10029 => "DECSCP",
            10030 => "DECINVM",
            10031 => "DECLFKC",
            10032 => "DECSR",
            10033 => "DECELF",
            10034 => "DECSMKR",
            10035 => "DECSPP",
            10036 => "DECSTGLT",
            10037 => "DECLTOD",
            10038 => "DECTID",
            10039 => "DECUS",
            10040 => "DECSZS",
            10041 => "DECAC",
            10042 => "DECATC",
            10043 => "DECPS",
            10044 => "DECCRTST",
            10045 => "DECSEST",
            10046 => "DECARR",
            10047 => "DECSKCV",
            10048 => "DECSWBV",
            10049 => "DECSMBV",
            10050 => "DECSLCK",
            10051 => "DECSSCLS",
            10052 => "DECKBD",
            10053 => "DECTME",
            10054 => "DECST8C",
            10055 => "MC_PRINT_CURSOR_LINE",
            10056 => "MC_AUTO_PRINT_OFF",
            10057 => "MC_AUTO_PRINT_ON",
            10058 => "MC_PRINT_DISPLAY",
            10059 => "MC_PRINT_ALL_PAGES",
            10060 => "DECLL_ALL_OFF",
            10061 => "DECLL_NUM_LOCK_ON",
            10062 => "DECLL_CAPS_LOCK_ON",
            10063 => "DECLL_SCROLL_LOCK_ON",
            10064 => "DECLL_NUM_LOCK_OFF",
            10065 => "DECLL_CAPS_LOCK_OFF",
            10066 => "DECLL_SCROLL_LOCK_OFF",
            10067 => "DECTST",
            10068 => "DECSLPP_UP_TO_47",
            10069 => "DECSLPP_FROM_49",
            10070 => "DECSLPP_48",
            10071 => "EF",
            10072 => "EA",
            10073 => "SEE",
            10074 => "NP",
            10075 => "PP",
            10076 => "SRS",
            10077 => "PTX",
            10078 => "SIMD",
            10079 => "DAQ",
            10080 => "SDS",
            10081 => "MC_PRINT_SCREEN",
            10082 => "MC_FROM_FIRST_DEVICE",
            10083 => "MC_TO_SECOND_DEVICE",
            10084 => "MC_FROM_SECOND_DEVICE",
            10085 => "MC_PRINTER_CONTROLLER_OFF",
            10086 => "MC_PRINTER_CONTROLLER_ON",
            10087 => "MC_SECOND_RELAY_OFF",
            10088 => "MC_SECOND_RELAY_ON",
            10089 => "DSR_READY",
            10090 => "DSR_BUSY_ASK_AGAIN",
            10091 => "DSR_BUSY_ANSWER_FOLLOWS",
            10092 => "DSR_MALFUNCTION_ASK_AGAIN",
            10093 => "DSR_MALFUNCTION_ANSWER_FOLLOWS",
            10094 => "SL",
            10095 => "SR",
            10096 => "GSM",
            10097 => "GSS",
            10098 => "FNT",
            10099 => "TSS",
            10100 => "JFY",
            10101 => "SPI",
            10102 => "QUAD",
            10103 => "SSU",
            10104 => "PFS",
            10105 => "SHS",
            10106 => "SVS",
            10107 => "IGS",
            10108 => "IDCS",
            10109 => "PPA",
            10110 => "PPR",
            10111 => "PPB",
            10112 => "SPD",
            10113 => "DTA",
            10114 => "SLH",
            10115 => "SLL",
            10116 => "FNK",
            10117 => "SPQR",
            10118 => "SEF",
            10119 => "PEC",
            10120 => "SSW",
            10121 => "SACS",
            10122 => "SAPV",
            10123 => "STAB",
            10124 => "GCC",
            10125 => "TATE",
            10126 => "TALE",
            10127 => "TAC",
            10128 => "TCC",
            10129 => "TSR",
            10130 => "SCO",
            10131 => "SRCS",
            10132 => "SCS",
            10133 => "SLS",
            10134 => "SPH",
            10135 => "SPL",
            10136 => "XTPUSHSGR",
            10137 => "XTPUSHSGR_P",
            10138 => "XTPOPSGR",
            10139 => "XTPOPSGR_Q",
            10140 => "XTPUSHCOLORS",
            10141 => "XTPOPCOLORS",
            10142 => "XTCHECKSUM",
            10143 => "XTMODKEYS",
            10144 => "XTSMPOINTER",
            10145 => "XTSHIFTESCAPE",
            10146 => "XTSMTITLE",
            10147 => "XTRMTITLE",
            10148 => "XTHIMOUSE",
            10149 => "SD",
            10150 => "XTWINOPS_PUSH_TITLES",
            10151 => "XTWINOPS_POP_TITLES",
            10152 => "MC_HTML_COPY",
            10153 => "MC_SVG_COPY",
            10154 => "UNSCROLL",
            10155 => "LINUX_UNDERLINE_COLOR",
            10156 => "LINUX_FAINT_COLOR",
            10157 => "LINUX_DEFAULT_COLORS",
            10158 => "LINUX_BLANK_MINUTES",
            10159 => "LINUX_BELL_PITCH",
            10160 => "LINUX_BELL_LENGTH",
            10161 => "LINUX_SHOW_CONSOLE",
            10162 => "LINUX_UNBLANK",
            10163 => "LINUX_POWER_DOWN_MINUTES",
            10164 => "LINUX_CONSOLE_BEFORE",
            10165 => "LINUX_BLINK_INTERVAL",
            10166 => "LINUX_CURSOR_AS_IT_WAS",
            10167 => "LINUX_CURSOR_2_TO_3",
            10168 => "LINUX_CURSOR_TWO_THIRDS",
            10169 => "LINUX_CURSOR_8_TO_11",
            10170 => "LINUX_CURSOR_16_TO_60",
            10171 => "LINUX_CURSOR_112_TO_127",
            10172 => "DECRQDE",
            10173 => "DECRQLP",
            10174 => "DECRQTSR_STATE",
            10175 => "DECRQTSR_COLORS",
            10176 => "DECRQPSR_CURSOR",
            10177 => "DECRQPSR_TAB_STOPS",
            10178 => "DECRQUPSS",
            10179 => "DECXCPR_ASK",
            10180 => "DSR_ASK_PRINTER",
            10181 => "DSR_ASK_USER_KEYS",
            10182 => "DSR_ASK_KEYBOARD",
            10183 => "DSR_LOCATOR",
            10184 => "DSR_ASK_LOCATOR",
            10185 => "DSR_ASK_LOCATOR_TYPE",
            10186 => "DECMSR_ASK",
            10187 => "DECCKSR",
            10188 => "DSR_ASK_DATA",
            10189 => "DSR_ASK_SESSIONS",
            10190 => "COLOR_SCHEME_ASK",
            10191 => "XTQMODKEYS",
            10192 => "XTQFMTKEYS",
            10193 => "XTREPORTSGR",
            10194 => "XTREPORTCOLORS",
            10195 => "XTTITLEPOS",
            10196 => "DECRPM",
            10197 => "DECRPM_PRIVATE",
            10198 => "DECRPDE",
            10199 => "DECLRP",
            10200 => "DECSRC",
            10201 => "DECMSR",
            10202 => "DECXCPR",
            10203 => "DSR_PRINTER_READY",
            10204 => "DSR_PRINTER_NOT_READY",
            10205 => "DSR_NO_PRINTER",
            10206 => "DSR_PRINTER_BUSY",
            10207 => "DSR_PRINTER_OF_ANOTHER_SESSION",
            10208 => "DSR_USER_KEYS_UNLOCKED",
            10209 => "DSR_USER_KEYS_LOCKED",
            10210 => "DSR_KEYBOARD",
            10211 => "DSR_NO_LOCATOR",
            10212 => "DSR_LOCATOR_TYPE",
            10213 => "DSR_NO_DATA_LOST",
            10214 => "DSR_DATA_MALFUNCTION",
            10215 => "DSR_NOTHING_OF_DATA",
            10216 => "DSR_ONE_SESSION",
            10217 => "COLOR_SCHEME",
            10218 => "DA1_VT132",
            10219 => "DA1_VT131",
            10220 => "DA1_VT125",
            10221 => "DA1_VT100",
            10222 => "DA1_VT500",
            10223 => "DA2",
            10224 => "DECREPTPARM",
            10225 => "XTWINOPS_DISPLAY_SIZE",
            10226 => "IN_BAND_RESIZE",
            10227 => "XTFMTKEYS",
            10228 => "FOCUS_LOST",
            10229 => "PASTE_START",
            10230 => "PASTE_END",
            10231 => "MOUSE_URXVT",
            10232 => "KEY_WIN32",
            10233 => "KEY_MODIFY_OTHER_KEYS",
            10234 => "KEY_CHARACTER",
            10235 => "KEY_MODIFIED_UP",
            10236 => "KEY_MODIFIED_DOWN",
            10237 => "KEY_MODIFIED_RIGHT",
            10238 => "KEY_MODIFIED_LEFT",
            10239 => "KEY_MODIFIED_BEGIN",
            10240 => "KEY_MODIFIED_END",
            10241 => "KEY_MODIFIED_F1",
            10242 => "KEY_MODIFIED_F2",
            10243 => "KEY_MODIFIED_F4",
            10244 => "KEY_HOME",
            10245 => "KEY_INSERT",
            10246 => "KEY_DELETE",
            10247 => "KEY_END",
            10248 => "KEY_PAGE_UP",
            10249 => "KEY_PAGE_DOWN",
            10250 => "KEY_HOME_RXVT",
            10251 => "KEY_END_RXVT",
            10252 => "KEY_F1",
            10253 => "KEY_F2",
            10254 => "KEY_F3",
            10255 => "KEY_F4",
            10256 => "KEY_F5",
            10257 => "KEY_F6",
            10258 => "KEY_F7",
            10259 => "KEY_F8",
            10260 => "KEY_F9",
            10261 => "KEY_F10",
            10262 => "KEY_F11",
            10263 => "KEY_F12",
            10264 => "KEY_F13",
            10265 => "KEY_F14",
            10266 => "KEY_F15",
            10267 => "KEY_F16",
            10268 => "KEY_F17",
            10269 => "KEY_F18",
            10270 => "KEY_F19",
            10271 => "KEY_F20",
            _ => "",
        }
    }
}
