"""The kinds of control sequences without an action. Written by tools/table."""
from __future__ import annotations

from enum import IntEnum


class KnownKind(IntEnum):
    """A row of docs/SEQUENCES.md, under its name in C: its form, what it says, and the document that it comes from."""

    #: `` ? extent 0-3 (or 0) J ``: erase in the display what isn't protected (EK-VT520-RM, DECSED).
    DECSED = 10001
    #: `` ? extent 0-2 (or 0) K ``: erase in the line what isn't protected (EK-VT520-RM, DECSEL).
    DECSEL = 10002
    #: `` protection 0-2 (or 0) " q ``: protection of the characters that follow (EK-VT520-RM, DECSCA).
    DECSCA = 10003
    #: `` level 61-65; controls 0-2 (or 0) " p ``: conformance level, and the form of C1 controls (EK-VT520-RM, DECSCL).
    DECSCL = 10004
    #: `` rate 0-3 (or 0) " t ``: refresh rate of the screen (EK-VT520-RM, DECSRFR).
    DECSRFR = 10005
    #: `` limit 0-9 (or 0) " u ``: limit of the transmit rate (EK-VT520-RM, DECSTRL).
    DECSTRL = 10006
    #: `` columns (or 1) ' } ``: insert columns (EK-VT520-RM, DECIC).
    DECIC = 10007
    #: `` columns (or 1) ' ~ ``: delete columns (EK-VT520-RM, DECDC).
    DECDC = 10008
    #: `` reports 0-2 (or 0); unit 0-2 (or 0) ' z ``: locator reports (xterm ctlseqs, DECELR).
    DECELR = 10009
    #: `` events 0-4 (or 0); more 0-4 .. ' { ``: which events of the locator are reported (xterm ctlseqs, DECSLE).
    DECSLE = 10010
    #: `` top (or 0); left (or 0); bottom (or 0); right (or 0) ' w ``: filter rectangle of the locator (xterm ctlseqs, DECEFR).
    DECEFR = 10011
    #: `` delay 0-65535 (or 0) $ q ``: delay of disconnecting (EK-VT520-RM, DECSDDT).
    DECSDDT = 10012
    #: `` printer 0-65535 (or 0) $ s ``: type of the printer (EK-VT520-RM, DECSPRTT).
    DECSPRTT = 10013
    #: `` top (or 1); left (or 1); bottom (or 0); right (or 0); attribute (or 0); more .. $ r ``: change attributes in a rectangle
    #:(EK-VT520-RM, DECCARA).
    DECCARA = 10014
    #: `` top (or 1); left (or 1); bottom (or 0); right (or 0); attribute (or 0); more .. $ t ``: reverse attributes in a rectangle
    #:(EK-VT520-RM, DECRARA).
    DECRARA = 10015
    #: `` top (or 1); left (or 1); bottom (or 0); right (or 0); page (or 1); to top (or 1); to left (or 1); to page (or 1) $ v ``: copy
    #:a rectangle (EK-VT520-RM, DECCRA).
    DECCRA = 10016
    #: `` character (or 32); top (or 1); left (or 1); bottom (or 0); right (or 0) $ x ``: fill a rectangle with a character
    #:(EK-VT520-RM, DECFRA).
    DECFRA = 10017
    #: `` top (or 1); left (or 1); bottom (or 0); right (or 0) $ z ``: erase a rectangle (EK-VT520-RM, DECERA).
    DECERA = 10018
    #: `` top (or 1); left (or 1); bottom (or 0); right (or 0) $ { ``: erase in a rectangle what isn't protected (EK-VT520-RM, DECSERA).
    DECSERA = 10019
    #: `` extent 0-2 (or 0) * x ``: whether DECCARA and DECRARA change a stream of lines (0 and 1) or a rectangle (EK-VT520-RM,
    #:DECSACE).
    DECSACE = 10020
    #: `` columns 0-255 (or 80) $ | ``: columns a page (EK-VT520-RM, DECSCPP).
    DECSCPP = 10021
    #: `` display 0-1 (or 0) $ } ``: whether characters go to the screen or to the status line (EK-VT520-RM, DECSASD).
    DECSASD = 10022
    #: `` line 0-2 (or 0) $ ~ ``: status line: none, the terminal's own, or one for programs (EK-VT520-RM, DECSSDT).
    DECSSDT = 10023
    #: `` lines 0-255 (or 24) * | ``: lines on the screen (EK-VT520-RM, DECSNLS).
    DECSNLS = 10024
    #: `` & x ``: enable the session (EK-VT520-RM, DECES).
    DECES = 10025
    #: `` set 0-65535 (or 0) * p ``: character set of the ProPrinter (EK-VT520-RM, DECSPPCS).
    DECSPPCS = 10026
    #: `` line 0-5 (or 0); speed 0-11 (or 0) * r ``: speed of a line (EK-VT520-RM, DECSCS).
    DECSCS = 10027
    #: `` direction (or 0); kind (or 0); level (or 0) * s ``: flow control (EK-VT520-RM, DECSFC).
    DECSFC = 10028
    #: `` port 0-2 (or 0); host (or 0) * u ``: communication port (EK-VT520-RM, DECSCP).
    DECSCP = 10029
    #: `` macro 0-63 (or 0) * z ``: run a macro (EK-VT520-RM, DECINVM).
    DECINVM = 10030
    #: `` key 0-8 (or 0); control 0-3 (or 0) * } ``: local function keys (EK-VT520-RM, DECLFKC).
    DECLFKC = 10031
    #: `` confirmation 0-16383 (or 0) + p ``: secure reset (EK-VT520-RM, DECSR).
    DECSR = 10032
    #: `` function 0-5 (or 0); control 0-2 (or 0) + q ``: local functions (EK-VT520-RM, DECELF).
    DECELF = 10033
    #: `` key (or 0); report (or 0) + r ``: reports of modifier keys (EK-VT520-RM, DECSMKR).
    DECSMKR = 10034
    #: `` port (or 0); bits (or 0); parity (or 0); stop (or 0) + w ``: parameters of a port (EK-VT520-RM, DECSPP).
    DECSPP = 10035
    #: `` table 0-3 (or 0) ) { ``: colour look-up table (EK-VT520-RM, DECSTGLT).
    DECSTGLT = 10036
    #: `` hour 0-23 (or 0); minute 0-59 (or 0) , p ``: time of day (EK-VT520-RM, DECLTOD).
    DECLTOD = 10037
    #: `` terminal 0-10 (or 0) , q ``: the terminal ID that is told (EK-VT520-RM, DECTID).
    DECTID = 10038
    #: `` session 0-1 (or 0) , y ``: update the session (EK-VT520-RM, DECUS).
    DECUS = 10039
    #: `` style 0-2 (or 0) , { ``: how zero is written (EK-VT520-RM, DECSZS).
    DECSZS = 10040
    #: `` item 1-2; foreground 0-255; background 0-255 , | ``: colours of text (EK-VT520-RM, DECAC).
    DECAC = 10041
    #: `` attribute 0-15; foreground 0-255; background 0-255 , } ``: colours of an attribute (EK-VT520-RM, DECATC).
    DECATC = 10042
    #: `` volume 0-7; duration 0-255; note 0-25 (or 0); more 0-25 .. , ~ ``: play notes (EK-VT520-RM, DECPS).
    DECPS = 10043
    #: `` minutes 0-60 (or 15) - q ``: time to the screen saver (EK-VT520-RM, DECCRTST).
    DECCRTST = 10044
    #: `` minutes 0-60 (or 15) - r ``: time to saving energy (EK-VT520-RM, DECSEST).
    DECSEST = 10045
    #: `` rate 0-30 (or 30) - p ``: rate of auto-repeat (EK-VT520-RM, DECARR).
    DECARR = 10046
    #: `` volume 0-8 (or 0) SP r ``: volume of the key click (EK-VT520-RM, DECSKCV).
    DECSKCV = 10047
    #: `` volume 0-8 (or 0) SP t ``: volume of the warning bell (EK-VT520-RM, DECSWBV).
    DECSWBV = 10048
    #: `` volume 0-8 (or 0) SP u ``: volume of the margin bell (EK-VT520-RM, DECSMBV).
    DECSMBV = 10049
    #: `` style 0-1 (or 0) SP v ``: style of the lock key (EK-VT520-RM, DECSLCK).
    DECSLCK = 10050
    #: `` speed 0-9 (or 0) SP p ``: speed of scrolling (EK-VT520-RM, DECSSCLS).
    DECSSCLS = 10051
    #: `` language 0-65535 (or 0); layout 0-65535 (or 0) SP } ``: language of the keyboard (EK-VT520-RM, DECKBD).
    DECKBD = 10052
    #: `` mode 0-7 (or 0) SP ~ ``: terminal mode emulation (EK-VT520-RM, DECTME).
    DECTME = 10053
    #: `` ? 5 W ``: tab stops at every 8 columns (EK-VT520-RM, DECST8C).
    DECST8C = 10054
    #: `` ? 1 i ``: print the line of the cursor (EK-VT520-RM, MC).
    MC_PRINT_CURSOR_LINE = 10055
    #: `` ? 4 i ``: auto print off (EK-VT520-RM, MC).
    MC_AUTO_PRINT_OFF = 10056
    #: `` ? 5 i ``: auto print on (EK-VT520-RM, MC).
    MC_AUTO_PRINT_ON = 10057
    #: `` ? 10 i ``: print the whole display (xterm ctlseqs, MC).
    MC_PRINT_DISPLAY = 10058
    #: `` ? 11 i ``: print all pages (xterm ctlseqs, MC).
    MC_PRINT_ALL_PAGES = 10059
    #: `` 0 (or 0) q ``: all lights of the keyboard off (EK-VT520-RM, DECLL).
    DECLL_ALL_OFF = 10060
    #: `` 1 q ``: num lock light on (EK-VT520-RM, DECLL).
    DECLL_NUM_LOCK_ON = 10061
    #: `` 2 q ``: caps lock light on (EK-VT520-RM, DECLL).
    DECLL_CAPS_LOCK_ON = 10062
    #: `` 3 q ``: scroll lock light on (EK-VT520-RM, DECLL).
    DECLL_SCROLL_LOCK_ON = 10063
    #: `` 21 q ``: num lock light off (xterm ctlseqs, DECLL).
    DECLL_NUM_LOCK_OFF = 10064
    #: `` 22 q ``: caps lock light off (xterm ctlseqs, DECLL).
    DECLL_CAPS_LOCK_OFF = 10065
    #: `` 23 q ``: scroll lock light off (xterm ctlseqs, DECLL).
    DECLL_SCROLL_LOCK_OFF = 10066
    #: `` kind 2-4; test (or 0); more .. y ``: self-test (EK-VT520-RM, DECTST).
    DECTST = 10067
    #: `` lines 24-47 t ``: lines a page, up to 47 (EK-VT520-RM, DECSLPP).
    DECSLPP_UP_TO_47 = 10068
    #: `` lines 49-255 t ``: lines a page, from 49 on (EK-VT520-RM, DECSLPP).
    DECSLPP_FROM_49 = 10069
    #: `` 48 t ``: 48 lines a page (EK-VT520-RM, DECSLPP).
    DECSLPP_48 = 10070
    #: `` extent 0-2 (or 0) N ``: erase in the field (ECMA-48, 8.3.40).
    EF = 10071
    #: `` extent 0-2 O ``: erase in the area (ECMA-48, 8.3.37).
    EA = 10072
    #: `` extent 0-4 (or 0) Q ``: select the extent of editing (ECMA-48, 8.3.115).
    SEE = 10073
    #: `` pages (or 1) U ``: pages forward (ECMA-48, 8.3.87).
    NP = 10074
    #: `` pages (or 1) V ``: pages back (ECMA-48, 8.3.95).
    PP = 10075
    #: `` string 0-1 (or 0) [ ``: start or end a reversed string (ECMA-48, 8.3.137).
    SRS = 10076
    #: `` text 0-5 (or 0) \ ``: parallel texts (ECMA-48, 8.3.99).
    PTX = 10077
    #: `` direction 0-1 (or 0) ^ ``: implicit direction of movement (ECMA-48, 8.3.120).
    SIMD = 10078
    #: `` kind 0-11 (or 0) o ``: qualify an area (ECMA-48, 8.3.25).
    DAQ = 10079
    #: `` string 0-1 (or 0) ] ``: start or end a directed string (ECMA-48, 8.3.114).
    SDS = 10080
    #: `` 0 (or 0) i ``: print the screen (ECMA-48, 8.3.82).
    MC_PRINT_SCREEN = 10081
    #: `` 1 i ``: transfer from the first device (ECMA-48, 8.3.82).
    MC_FROM_FIRST_DEVICE = 10082
    #: `` 2 i ``: transfer to the second device (ECMA-48, 8.3.82).
    MC_TO_SECOND_DEVICE = 10083
    #: `` 3 i ``: transfer from the second device (ECMA-48, 8.3.82).
    MC_FROM_SECOND_DEVICE = 10084
    #: `` 4 i ``: printer controller off (ECMA-48, 8.3.82).
    MC_PRINTER_CONTROLLER_OFF = 10085
    #: `` 5 i ``: printer controller on (ECMA-48, 8.3.82).
    MC_PRINTER_CONTROLLER_ON = 10086
    #: `` 6 i ``: relay to the second device off (ECMA-48, 8.3.82).
    MC_SECOND_RELAY_OFF = 10087
    #: `` 7 i ``: relay to the second device on (ECMA-48, 8.3.82).
    MC_SECOND_RELAY_ON = 10088
    #: `` 0 n ``: answer: ready, no malfunction (ECMA-48, 8.3.35).
    DSR_READY = 10089
    #: `` 1 n ``: answer: busy, ask again (ECMA-48, 8.3.35).
    DSR_BUSY_ASK_AGAIN = 10090
    #: `` 2 n ``: answer: busy, another answer follows (ECMA-48, 8.3.35).
    DSR_BUSY_ANSWER_FOLLOWS = 10091
    #: `` 3 n ``: answer: malfunction, ask again (ECMA-48, 8.3.35).
    DSR_MALFUNCTION_ASK_AGAIN = 10092
    #: `` 4 n ``: answer: malfunction, another answer follows (ECMA-48, 8.3.35).
    DSR_MALFUNCTION_ANSWER_FOLLOWS = 10093
    #: `` columns (or 1) SP @ ``: scroll left (ECMA-48, 8.3.121).
    SL = 10094
    #: `` columns (or 1) SP A ``: scroll right (ECMA-48, 8.3.135).
    SR = 10095
    #: `` height (or 100); width (or 100) SP B ``: size of characters, in percent (ECMA-48, 8.3.55).
    GSM = 10096
    #: `` size SP C ``: size of characters (ECMA-48, 8.3.56).
    GSS = 10097
    #: `` font 0-9 (or 0); set (or 0) SP D ``: a font (ECMA-48, 8.3.53).
    FNT = 10098
    #: `` width SP E ``: width of a thin space (ECMA-48, 8.3.157).
    TSS = 10099
    #: `` how 0-8 (or 0) SP F ``: justify the text (ECMA-48, 8.3.73).
    JFY = 10100
    #: `` lines; characters SP G ``: spacing of lines and characters (ECMA-48, 8.3.132).
    SPI = 10101
    #: `` how 0-6 (or 0) SP H ``: place the text of the line (ECMA-48, 8.3.102).
    QUAD = 10102
    #: `` unit 0-8 (or 0) SP I ``: unit of size (ECMA-48, 8.3.139).
    SSU = 10103
    #: `` format 0-15 (or 0) SP J ``: format of the page (ECMA-48, 8.3.91).
    PFS = 10104
    #: `` spacing 0-6 (or 0) SP K ``: character spacing (ECMA-48, 8.3.118).
    SHS = 10105
    #: `` spacing 0-9 (or 0) SP L ``: line spacing (ECMA-48, 8.3.149).
    SVS = 10106
    #: `` repertoire SP M ``: graphic subrepertoire (ECMA-48, 8.3.66).
    IGS = 10107
    #: `` kind SP O ``: what device control strings are (ECMA-48, 8.3.65).
    IDCS = 10108
    #: `` page (or 1) SP P ``: to a page (ECMA-48, 8.3.96).
    PPA = 10109
    #: `` pages (or 1) SP Q ``: pages forward, place kept (ECMA-48, 8.3.98).
    PPR = 10110
    #: `` pages (or 1) SP R ``: pages back, place kept (ECMA-48, 8.3.97).
    PPB = 10111
    #: `` direction 0-7 (or 0); effect 0-2 (or 0) SP S ``: directions of lines and characters (ECMA-48, 8.3.130).
    SPD = 10112
    #: `` height; width SP T ``: dimensions of the text area (ECMA-48, 8.3.36).
    DTA = 10113
    #: `` column SP U ``: line home (ECMA-48, 8.3.122).
    SLH = 10114
    #: `` column SP V ``: line limit (ECMA-48, 8.3.123).
    SLL = 10115
    #: `` key SP W ``: a function key (ECMA-48, 8.3.52).
    FNK = 10116
    #: `` quality 0-2 (or 0) SP X ``: print quality (ECMA-48, 8.3.134).
    SPQR = 10117
    #: `` bin (or 0); stacker (or 0) SP Y ``: sheet eject and feed (ECMA-48, 8.3.116).
    SEF = 10118
    #: `` how 0-2 (or 0) SP Z ``: expand or contract characters (ECMA-48, 8.3.90).
    PEC = 10119
    #: `` width SP [ ``: width of a space (ECMA-48, 8.3.140).
    SSW = 10120
    #: `` width (or 0) SP \ ``: additional character separation (ECMA-48, 8.3.107).
    SACS = 10121
    #: `` variant 0-22 (or 0) SP ] ``: alternative presentation (ECMA-48, 8.3.108).
    SAPV = 10122
    #: `` stop SP ^ ``: selective tabulation (ECMA-48, 8.3.144).
    STAB = 10123
    #: `` how 0-2 (or 0) SP _ ``: combine characters (ECMA-48, 8.3.54).
    GCC = 10124
    #: `` column SP ` ``: tab stop at the trailing edge (ECMA-48, 8.3.153).
    TATE = 10125
    #: `` column SP a ``: tab stop at the leading edge (ECMA-48, 8.3.152).
    TALE = 10126
    #: `` column SP b ``: centred tab stop (ECMA-48, 8.3.151).
    TAC = 10127
    #: `` column; character (or 32) SP c ``: tab stop centred on a character (ECMA-48, 8.3.155).
    TCC = 10128
    #: `` column SP d ``: remove a tab stop (ECMA-48, 8.3.156).
    TSR = 10129
    #: `` turn 0-7 (or 0) SP e ``: orientation of characters (ECMA-48, 8.3.110).
    SCO = 10130
    #: `` width (or 0) SP f ``: reduced character separation (ECMA-48, 8.3.136).
    SRCS = 10131
    #: `` spacing SP g ``: character spacing (ECMA-48, 8.3.112).
    SCS = 10132
    #: `` spacing SP h ``: line spacing (ECMA-48, 8.3.124).
    SLS = 10133
    #: `` line SP i ``: page home (ECMA-48, 8.3.131).
    SPH = 10134
    #: `` line SP j ``: page limit (ECMA-48, 8.3.133).
    SPL = 10135
    #: `` attribute .. # { ``: push attributes, all where none is named (xterm ctlseqs, XTPUSHSGR).
    XTPUSHSGR = 10136
    #: `` attribute .. # p ``: push attributes, all where none is named (xterm ctlseqs, XTPUSHSGR).
    XTPUSHSGR_P = 10137
    #: `` # } ``: pop the attributes (xterm ctlseqs, XTPOPSGR).
    XTPOPSGR = 10138
    #: `` # q ``: pop the attributes (xterm ctlseqs, XTPOPSGR).
    XTPOPSGR_Q = 10139
    #: `` place 0-10 (or 0) # P ``: push the colours (xterm ctlseqs, XTPUSHCOLORS).
    XTPUSHCOLORS = 10140
    #: `` place 0-10 (or 0) # Q ``: pop the colours (xterm ctlseqs, XTPOPCOLORS).
    XTPOPCOLORS = 10141
    #: `` bits 0-63 (or 0) # y ``: how checksums are made (xterm ctlseqs, XTCHECKSUM).
    XTCHECKSUM = 10142
    #: `` > resource 0-7 (or 2) n ``: modifiers of keys off (xterm ctlseqs, CSI > Ps n).
    XTMODKEYS = 10143
    #: `` > hides 0-3 (or 1) p ``: when the pointer is hidden (xterm ctlseqs, XTSMPOINTER).
    XTSMPOINTER = 10144
    #: `` > shift 0-3 (or 0) s ``: whether shift is a modifier in mouse reports (xterm ctlseqs, XTSHIFTESCAPE).
    XTSHIFTESCAPE = 10145
    #: `` > form 0-3; more 0-3 .. t ``: set the form of titles (xterm ctlseqs, XTSMTITLE).
    XTSMTITLE = 10146
    #: `` > form 0-3; more 0-3 .. T ``: reset the form of titles (xterm ctlseqs, XTRMTITLE).
    XTRMTITLE = 10147
    #: `` function; column; line; first; last T ``: highlight while the mouse is moved (xterm ctlseqs, XTHIMOUSE).
    XTHIMOUSE = 10148
    #: `` lines 2- ^ ``: scroll down (xterm ctlseqs, CSI Ps ^).
    SD = 10149
    #: `` 22 t ``: push the icon name and the window title (xterm ctlseqs, XTWINOPS).
    XTWINOPS_PUSH_TITLES = 10150
    #: `` 23 t ``: pop the icon name and the window title (xterm ctlseqs, XTWINOPS).
    XTWINOPS_POP_TITLES = 10151
    #: `` 10 i ``: HTML copy of the screen (xterm ctlseqs, MC).
    MC_HTML_COPY = 10152
    #: `` 11 i ``: SVG copy of the screen (xterm ctlseqs, MC).
    MC_SVG_COPY = 10153
    #: `` lines (or 1) + T ``: scroll down out of the scrollback (kitty, Unscrolling the screen).
    UNSCROLL = 10154
    #: `` 1; colour ] ``: colour for underline (console_codes(4)).
    LINUX_UNDERLINE_COLOR = 10155
    #: `` 2; colour ] ``: colour for faint (console_codes(4)).
    LINUX_FAINT_COLOR = 10156
    #: `` 8 ] ``: make the current colours the default (console_codes(4)).
    LINUX_DEFAULT_COLORS = 10157
    #: `` 9; minutes ] ``: minutes to a blank screen (console_codes(4)).
    LINUX_BLANK_MINUTES = 10158
    #: `` 10; pitch ] ``: pitch of the bell, in hertz (console_codes(4)).
    LINUX_BELL_PITCH = 10159
    #: `` 11; length ] ``: length of the bell, in milliseconds (console_codes(4)).
    LINUX_BELL_LENGTH = 10160
    #: `` 12; console ] ``: show a console (console_codes(4)).
    LINUX_SHOW_CONSOLE = 10161
    #: `` 13 ] ``: unblank the screen (console_codes(4)).
    LINUX_UNBLANK = 10162
    #: `` 14; minutes ] ``: minutes to powering down the screen (console_codes(4)).
    LINUX_POWER_DOWN_MINUTES = 10163
    #: `` 15 ] ``: show the console before (console_codes(4)).
    LINUX_CONSOLE_BEFORE = 10164
    #: `` 16; interval ] ``: interval of the cursor's blinking, in milliseconds (console_codes(4)).
    LINUX_BLINK_INTERVAL = 10165
    #: `` ? 0 c ``: the cursor's look: as it was (Linux, VGA softcursor).
    LINUX_CURSOR_AS_IT_WAS = 10166
    #: `` ? look 2-3 c ``: the cursor's look (Linux, VGA softcursor).
    LINUX_CURSOR_2_TO_3 = 10167
    #: `` ? 5 c ``: the cursor's look: two thirds (Linux, VGA softcursor).
    LINUX_CURSOR_TWO_THIRDS = 10168
    #: `` ? look 8-11 c ``: the cursor's look (Linux, VGA softcursor).
    LINUX_CURSOR_8_TO_11 = 10169
    #: `` ? look 16-60; turned 0-255 (or 0); set 0-255 (or 0) c ``: the cursor's look (Linux, VGA softcursor).
    LINUX_CURSOR_16_TO_60 = 10170
    #: `` ? look 112-127; turned 0-255 (or 0); set 0-255 (or 0) c ``: the cursor's look (Linux, VGA softcursor).
    LINUX_CURSOR_112_TO_127 = 10171
    #: `` " v ``: ask which part of the page is shown (EK-VT520-RM, DECRQDE).
    DECRQDE = 10172
    #: `` what 0-1 (or 0) ' | ``: ask for the locator's position (xterm ctlseqs, DECRQLP).
    DECRQLP = 10173
    #: `` 1 $ u ``: ask for the terminal's state (EK-VT520-RM, DECRQTSR).
    DECRQTSR_STATE = 10174
    #: `` 2; space 0-2 (or 0) $ u ``: ask for the colour table (EK-VT520-RM, DECRQTSR).
    DECRQTSR_COLORS = 10175
    #: `` 1 $ w ``: ask for the cursor's state (EK-VT520-RM, DECRQPSR).
    DECRQPSR_CURSOR = 10176
    #: `` 2 $ w ``: ask for the tab stops (EK-VT520-RM, DECRQPSR).
    DECRQPSR_TAB_STOPS = 10177
    #: `` & u ``: ask for the user's supplemental set (xterm ctlseqs, DECRQUPSS).
    DECRQUPSS = 10178
    #: `` ? 6 n ``: ask for the cursor's position and page (EK-VT520-RM, DSR).
    DECXCPR_ASK = 10179
    #: `` ? 15 n ``: ask for the printer's status (EK-VT520-RM, DSR).
    DSR_ASK_PRINTER = 10180
    #: `` ? 25 n ``: ask whether user-defined keys are locked (EK-VT520-RM, DSR).
    DSR_ASK_USER_KEYS = 10181
    #: `` ? 26 n ``: ask for the keyboard's language (EK-VT520-RM, DSR).
    DSR_ASK_KEYBOARD = 10182
    #: `` ? 53 n ``: ask for the locator's status, or answer that it is there (EK-VT520-RM, DSR).
    DSR_LOCATOR = 10183
    #: `` ? 55 n ``: ask for the locator's status (xterm ctlseqs, DSR).
    DSR_ASK_LOCATOR = 10184
    #: `` ? 56 n ``: ask for the locator's type (xterm ctlseqs, DSR).
    DSR_ASK_LOCATOR_TYPE = 10185
    #: `` ? 62 n ``: ask for the room for macros (EK-VT520-RM, DSR).
    DECMSR_ASK = 10186
    #: `` ? 63; request (or 0) n ``: ask for the checksum of the memory (EK-VT520-RM, DSR).
    DECCKSR = 10187
    #: `` ? 75 n ``: ask for the integrity of data (EK-VT520-RM, DSR).
    DSR_ASK_DATA = 10188
    #: `` ? 85 n ``: ask for the sessions (EK-VT520-RM, DSR).
    DSR_ASK_SESSIONS = 10189
    #: `` ? 996 n ``: ask for the colour scheme (contour, Color Palette Update Notifications).
    COLOR_SCHEME_ASK = 10190
    #: `` ? resource 0-7 m ``: ask for the modifiers of keys (xterm ctlseqs, XTQMODKEYS).
    XTQMODKEYS = 10191
    #: `` ? resource 0-7 g ``: ask for the format of keys (xterm ctlseqs, XTQFMTKEYS).
    XTQFMTKEYS = 10192
    #: `` top (or 1); left (or 1); bottom (or 0); right (or 0) # | ``: ask for the attributes in a rectangle (xterm ctlseqs,
    #:XTREPORTSGR).
    XTREPORTSGR = 10193
    #: `` # R ``: ask for the stack of colours (xterm ctlseqs, XTREPORTCOLORS).
    XTREPORTCOLORS = 10194
    #: `` # S ``: ask for the place on the stack of titles (xterm ctlseqs, XTTITLEPOS).
    XTTITLEPOS = 10195
    #: `` mode 0-65535; state 0-4 $ y ``: the state of a mode (EK-VT520-RM, DECRPM).
    DECRPM = 10196
    #: `` ? mode; state 0-4 $ y ``: the state of a private mode (EK-VT520-RM, DECRPM).
    DECRPM_PRIVATE = 10197
    #: `` lines; columns; left (or 1); top (or 1); page (or 1) " w ``: the part of the page that is shown (EK-VT520-RM, DECRPDE).
    DECRPDE = 10198
    #: `` event 0-10; buttons 0-15 (or 0); line (or 0); column (or 0); page (or 0) & w ``: the locator's position (xterm ctlseqs,
    #:DECRQLP).
    DECLRP = 10199
    #: `` confirmation 0-16383 (or 0) * q ``: confirmation of a secure reset (EK-VT520-RM, DECSRC).
    DECSRC = 10200
    #: `` blocks * { ``: room for macros, in blocks of 16 bytes (EK-VT520-RM, DECMSR).
    DECMSR = 10201
    #: `` ? line; column; page (or 1) R ``: the cursor's position and page (EK-VT520-RM, DECXCPR).
    DECXCPR = 10202
    #: `` ? 10 n ``: printer ready (EK-VT520-RM, DSR).
    DSR_PRINTER_READY = 10203
    #: `` ? 11 n ``: printer not ready (EK-VT520-RM, DSR).
    DSR_PRINTER_NOT_READY = 10204
    #: `` ? 13 n ``: no printer (EK-VT520-RM, DSR).
    DSR_NO_PRINTER = 10205
    #: `` ? 18 n ``: printer busy (EK-VT520-RM, DSR).
    DSR_PRINTER_BUSY = 10206
    #: `` ? 19 n ``: printer with another session (EK-VT520-RM, DSR).
    DSR_PRINTER_OF_ANOTHER_SESSION = 10207
    #: `` ? 20 n ``: user-defined keys unlocked (EK-VT520-RM, DSR).
    DSR_USER_KEYS_UNLOCKED = 10208
    #: `` ? 21 n ``: user-defined keys locked (EK-VT520-RM, DSR).
    DSR_USER_KEYS_LOCKED = 10209
    #: `` ? 27; language (or 0); status (or 0); kind (or 0) n ``: the keyboard's language (EK-VT520-RM, DSR).
    DSR_KEYBOARD = 10210
    #: `` ? 50 n ``: no locator (EK-VT520-RM, DSR).
    DSR_NO_LOCATOR = 10211
    #: `` ? 57; kind (or 0) n ``: the locator's type (xterm ctlseqs, DSR).
    DSR_LOCATOR_TYPE = 10212
    #: `` ? 70 n ``: no data lost (EK-VT520-RM, DSR).
    DSR_NO_DATA_LOST = 10213
    #: `` ? 71 n ``: malfunction, or power cycle (EK-VT520-RM, DSR).
    DSR_DATA_MALFUNCTION = 10214
    #: `` ? 73 n ``: nothing to tell of data (EK-VT520-RM, DSR).
    DSR_NOTHING_OF_DATA = 10215
    #: `` ? 83 n ``: one session (EK-VT520-RM, DSR).
    DSR_ONE_SESSION = 10216
    #: `` ? 997; scheme 0-2 n ``: 1 a dark, 2 a light colour scheme (contour, Color Palette Update Notifications).
    COLOR_SCHEME = 10217
    #: `` ? 4; 6 c ``: VT132 with advanced video and graphics (xterm ctlseqs, DA).
    DA1_VT132 = 10218
    #: `` ? 7 c ``: VT131 (xterm ctlseqs, DA).
    DA1_VT131 = 10219
    #: `` ? 12; options c ``: VT125 (xterm ctlseqs, DA).
    DA1_VT125 = 10220
    #: `` ? 61; extension .. c ``: VT100 class, with its extensions (EK-VT520-RM, DA1).
    DA1_VT100 = 10221
    #: `` ? 65; extension .. c ``: VT500 class, with its extensions (EK-VT520-RM, DA1).
    DA1_VT500 = 10222
    #: `` > kind; firmware; options (or 0) c ``: type, version of the firmware, options (EK-VT520-RM, DA2).
    DA2 = 10223
    #: `` kind 2-3; parity 1-5; bits 1-2; sends; receives; clock; flags x ``: parameters of the serial line (VT100 User Guide,
    #:DECREQTPARM).
    DECREPTPARM = 10224
    #: `` 9; height 4-; width t ``: size of the display, in cells (xterm ctlseqs, XTWINOPS).
    XTWINOPS_DISPLAY_SIZE = 10225
    #: `` 48; lines; columns; height (or 0); width (or 0) t ``: size of the window, in cells and pixels (kitty, In-band resize
    #:notifications).
    IN_BAND_RESIZE = 10226
    #: `` > resource 0-7; format (or 0) f ``: set the format of keys, or its answer (xterm ctlseqs, XTFMTKEYS).
    XTFMTKEYS = 10227
    #: `` O ``: focus lost (xterm ctlseqs, FocusIn/FocusOut).
    FOCUS_LOST = 10228
    #: `` 200 ~ ``: start of pasted text (xterm ctlseqs, Bracketed Paste Mode).
    PASTE_START = 10229
    #: `` 201 ~ ``: end of pasted text (xterm ctlseqs, Bracketed Paste Mode).
    PASTE_END = 10230
    #: `` code 32-255; column; line M ``: report of the mouse in urxvt's form (urxvt(7), Mode 1015).
    MOUSE_URXVT = 10231
    #: `` virtual; scan; character; pressed 0-1; held (or 0); times (or 1) _ ``: a key by Win32's record (Windows Terminal, spec 4999).
    KEY_WIN32 = 10232
    #: `` 27; modifiers 1-256; character ~ ``: a key by its character (modifyOtherKeys) (xterm ctlseqs, Alt and Meta Keys).
    KEY_MODIFY_OTHER_KEYS = 10233
    #: `` character; modifiers 1-256 (or 1) u ``: a key by its character (kitty; formatOtherKeys of xterm) (kitty, Comprehensive
    #:keyboard handling).
    KEY_CHARACTER = 10234
    #: `` 1; modifiers 2-256 A ``: Up, with modifiers (xterm ctlseqs, PC-Style Function Keys).
    KEY_MODIFIED_UP = 10235
    #: `` 1; modifiers 2-256 B ``: Down, with modifiers (xterm ctlseqs, PC-Style Function Keys).
    KEY_MODIFIED_DOWN = 10236
    #: `` 1; modifiers 2-256 C ``: Right, with modifiers (xterm ctlseqs, PC-Style Function Keys).
    KEY_MODIFIED_RIGHT = 10237
    #: `` 1; modifiers 2-256 D ``: Left, with modifiers (xterm ctlseqs, PC-Style Function Keys).
    KEY_MODIFIED_LEFT = 10238
    #: `` 1; modifiers 2-256 E ``: Begin, with modifiers (xterm ctlseqs, PC-Style Function Keys).
    KEY_MODIFIED_BEGIN = 10239
    #: `` 1; modifiers 2-256 F ``: End, with modifiers (xterm ctlseqs, PC-Style Function Keys).
    KEY_MODIFIED_END = 10240
    #: `` 1; modifiers 2-256 P ``: F1, with modifiers (xterm ctlseqs, PC-Style Function Keys).
    KEY_MODIFIED_F1 = 10241
    #: `` 1; modifiers 2-256 Q ``: F2, with modifiers (xterm ctlseqs, PC-Style Function Keys).
    KEY_MODIFIED_F2 = 10242
    #: `` 1; modifiers 2-256 S ``: F4, with modifiers (xterm ctlseqs, PC-Style Function Keys).
    KEY_MODIFIED_F4 = 10243
    #: `` 1; modifiers 1-256 (or 1) ~ ``: Home (xterm ctlseqs, PC-Style Function Keys).
    KEY_HOME = 10244
    #: `` 2; modifiers 1-256 (or 1) ~ ``: Insert (xterm ctlseqs, PC-Style Function Keys).
    KEY_INSERT = 10245
    #: `` 3; modifiers 1-256 (or 1) ~ ``: Delete (xterm ctlseqs, PC-Style Function Keys).
    KEY_DELETE = 10246
    #: `` 4; modifiers 1-256 (or 1) ~ ``: End (xterm ctlseqs, PC-Style Function Keys).
    KEY_END = 10247
    #: `` 5; modifiers 1-256 (or 1) ~ ``: Page Up (xterm ctlseqs, PC-Style Function Keys).
    KEY_PAGE_UP = 10248
    #: `` 6; modifiers 1-256 (or 1) ~ ``: Page Down (xterm ctlseqs, PC-Style Function Keys).
    KEY_PAGE_DOWN = 10249
    #: `` 7; modifiers 1-256 (or 1) ~ ``: Home (rxvt) (xterm ctlseqs, PC-Style Function Keys).
    KEY_HOME_RXVT = 10250
    #: `` 8; modifiers 1-256 (or 1) ~ ``: End (rxvt) (xterm ctlseqs, PC-Style Function Keys).
    KEY_END_RXVT = 10251
    #: `` 11; modifiers 1-256 (or 1) ~ ``: F1 (xterm ctlseqs, PC-Style Function Keys).
    KEY_F1 = 10252
    #: `` 12; modifiers 1-256 (or 1) ~ ``: F2 (xterm ctlseqs, PC-Style Function Keys).
    KEY_F2 = 10253
    #: `` 13; modifiers 1-256 (or 1) ~ ``: F3 (xterm ctlseqs, PC-Style Function Keys).
    KEY_F3 = 10254
    #: `` 14; modifiers 1-256 (or 1) ~ ``: F4 (xterm ctlseqs, PC-Style Function Keys).
    KEY_F4 = 10255
    #: `` 15; modifiers 1-256 (or 1) ~ ``: F5 (xterm ctlseqs, PC-Style Function Keys).
    KEY_F5 = 10256
    #: `` 17; modifiers 1-256 (or 1) ~ ``: F6 (xterm ctlseqs, PC-Style Function Keys).
    KEY_F6 = 10257
    #: `` 18; modifiers 1-256 (or 1) ~ ``: F7 (xterm ctlseqs, PC-Style Function Keys).
    KEY_F7 = 10258
    #: `` 19; modifiers 1-256 (or 1) ~ ``: F8 (xterm ctlseqs, PC-Style Function Keys).
    KEY_F8 = 10259
    #: `` 20; modifiers 1-256 (or 1) ~ ``: F9 (xterm ctlseqs, PC-Style Function Keys).
    KEY_F9 = 10260
    #: `` 21; modifiers 1-256 (or 1) ~ ``: F10 (xterm ctlseqs, PC-Style Function Keys).
    KEY_F10 = 10261
    #: `` 23; modifiers 1-256 (or 1) ~ ``: F11 (xterm ctlseqs, PC-Style Function Keys).
    KEY_F11 = 10262
    #: `` 24; modifiers 1-256 (or 1) ~ ``: F12 (xterm ctlseqs, PC-Style Function Keys).
    KEY_F12 = 10263
    #: `` 25; modifiers 1-256 (or 1) ~ ``: F13 (xterm ctlseqs, PC-Style Function Keys).
    KEY_F13 = 10264
    #: `` 26; modifiers 1-256 (or 1) ~ ``: F14 (xterm ctlseqs, PC-Style Function Keys).
    KEY_F14 = 10265
    #: `` 28; modifiers 1-256 (or 1) ~ ``: F15 (Help) (xterm ctlseqs, PC-Style Function Keys).
    KEY_F15 = 10266
    #: `` 29; modifiers 1-256 (or 1) ~ ``: F16 (Menu) (xterm ctlseqs, PC-Style Function Keys).
    KEY_F16 = 10267
    #: `` 31; modifiers 1-256 (or 1) ~ ``: F17 (xterm ctlseqs, PC-Style Function Keys).
    KEY_F17 = 10268
    #: `` 32; modifiers 1-256 (or 1) ~ ``: F18 (xterm ctlseqs, PC-Style Function Keys).
    KEY_F18 = 10269
    #: `` 33; modifiers 1-256 (or 1) ~ ``: F19 (xterm ctlseqs, PC-Style Function Keys).
    KEY_F19 = 10270
    #: `` 34; modifiers 1-256 (or 1) ~ ``: F20 (xterm ctlseqs, PC-Style Function Keys).
    KEY_F20 = 10271
