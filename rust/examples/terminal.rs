//! terminal FILE: plays a stream of a terminal of 24 lines and 80 columns, and writes the screen that it leaves: its lines, and where
//! the attributes change the control sequences that set them.

use csicodec::{
    CSI, Cursor, Edit, EraseInDisplay, EraseInLine, Esc, EscCode, Event, Known, KnownKind, Parser,
    Pen, characters,
};
use std::ops::Range;
use std::{env, error, fs};

const LINES: usize = 24;
const COLUMNS: usize = 80;
const BLANK: Cell = Cell {
    character: ' ',
    safe: false,
    pen: Pen::new(),
};

/// A cell that is safe stays in selective erasing.
#[derive(Clone, Copy)]
struct Cell {
    character: char,
    safe: bool,
    pen: Pen,
}

fn erase_unsafe(cells: &mut [Cell]) {
    cells
        .iter_mut()
        .filter(|cell| !cell.safe)
        .for_each(|cell| *cell = BLANK);
}

/// The lines of a rectangle, or its columns, of so many.
fn range(first: u32, last: u32, count: usize) -> Range<usize> {
    let end = if last == 0 {
        count
    } else {
        count.min(last as usize)
    };
    (first as usize).saturating_sub(1).min(end)..end
}

/// Its lines, and its columns.
fn area(sides: &[u32]) -> (Range<usize>, Range<usize>) {
    (
        range(sides[0], sides[2], LINES),
        range(sides[1], sides[3], COLUMNS),
    )
}

#[derive(Default)]
struct Terminal {
    page: Vec<Vec<Cell>>,
    line: usize,
    column: usize,
    saved: (usize, usize),
    top: usize,
    bottom: usize,
    safe: bool,
    pen: Pen,
}

impl Terminal {
    fn next_line(&mut self) {
        if self.line == self.bottom {
            self.edit(Edit::ScrollUp(1));
        } else {
            self.line = (self.line + 1).min(LINES - 1);
        }
    }

    fn text(&mut self, character: char) {
        match character {
            '\r' => self.column = 0,
            '\n' | '\x0b' | '\x0c' => self.next_line(),
            '\x08' => self.column = self.column.saturating_sub(1).min(COLUMNS - 1),
            '\t' => self.column = ((self.column | 7) + 1).min(COLUMNS - 1),
            _ if character.is_ascii_control() => {}
            _ => self.put(character),
        }
    }

    fn put(&mut self, character: char) {
        if self.column == COLUMNS {
            self.column = 0;
            self.next_line();
        }
        self.page[self.line][self.column] = self.cell(character);
        self.column += 1;
    }

    fn cell(&self, character: char) -> Cell {
        Cell {
            character,
            safe: self.safe,
            pen: self.pen,
        }
    }

    fn act(&mut self, action: CSI) {
        match action {
            CSI::Sgr(sgr) => self.pen.set(sgr),
            CSI::Cursor(Cursor::SetTopAndBottomMargins { top, bottom }) => {
                let margins = (top.as_index(LINES), bottom.as_index(LINES));
                if margins.0 < margins.1 {
                    (self.top, self.bottom) = margins;
                    (self.line, self.column) = (0, 0);
                }
            }
            CSI::Cursor(cursor) => {
                let here = (self.line, self.column);
                (self.line, self.column) = cursor.target(here, (LINES, COLUMNS)).unwrap_or(here);
            }
            CSI::Edit(edit) => self.edit(edit),
            CSI::Unspecified(unknown) => {
                if let Some(known) = Known::of(&unknown) {
                    self.carry_out(known);
                }
            }
            _ => {}
        }
    }

    /// What has no action, by its row of docs/SEQUENCES.md.
    fn carry_out(&mut self, known: Known) {
        let here = self.column.min(COLUMNS - 1);
        let inside = (self.top..=self.bottom).contains(&self.line);
        let values = known.values();
        let first = values.first().map_or(0, |value| *value);
        match known.kind() {
            KnownKind::DECSCA => self.safe = first == 1,
            KnownKind::DECSED => self.erase_unsafe(EraseInDisplay::from_i64(first.into())),
            KnownKind::DECSEL => self.erase_unsafe_in_line(EraseInLine::from_i64(first.into())),
            KnownKind::DECERA => self.edit_area(area(values), |cells| cells.fill(BLANK)),
            KnownKind::DECSERA => self.edit_area(area(values), erase_unsafe),
            KnownKind::DECFRA => self.fill(area(&values[1..]), first),
            KnownKind::DECCRA => {
                let to = [values[5], values[6]].map(|place| (place as usize).saturating_sub(1));
                self.copy(area(values), to);
            }
            KnownKind::DECIC if inside => {
                self.edit_lines(Edit::InsertCharacter(first.max(1)), here)
            }
            KnownKind::DECDC if inside => {
                self.edit_lines(Edit::DeleteCharacter(first.max(1)), here)
            }
            KnownKind::SL => self.edit_lines(Edit::DeleteCharacter(first.max(1)), 0),
            KnownKind::SR => self.edit_lines(Edit::InsertCharacter(first.max(1)), 0),
            _ => {}
        }
    }

    fn erase_unsafe(&mut self, erase: Option<EraseInDisplay>) {
        let lines = erase.map_or(0..0, |erase| erase.lines(self.line, LINES));
        self.page[lines]
            .iter_mut()
            .for_each(|line| erase_unsafe(line));
        self.erase_unsafe_in_line(erase.and_then(|erase| erase.in_line()));
    }

    fn erase_unsafe_in_line(&mut self, erase: Option<EraseInLine>) {
        let here = self.column.min(COLUMNS - 1);
        let columns = erase.map_or(0..0, |erase| erase.columns(here, COLUMNS));
        erase_unsafe(&mut self.page[self.line][columns]);
    }

    fn edit_area(&mut self, area: (Range<usize>, Range<usize>), edit: impl Fn(&mut [Cell])) {
        for line in &mut self.page[area.0] {
            edit(&mut line[area.1.clone()]);
        }
    }

    /// Fills a rectangle with a character from U+0020 to U+007E, or from U+00A0 to U+00FF.
    fn fill(&mut self, area: (Range<usize>, Range<usize>), code: u32) {
        if let Some(character @ (' '..='~' | '\u{a0}'..='\u{ff}')) = char::from_u32(code) {
            let cell = self.cell(character);
            self.edit_area(area, |cells| cells.fill(cell.clone()));
        }
    }

    fn copy(&mut self, area: (Range<usize>, Range<usize>), to: [usize; 2]) {
        let before = self.page[area.0].to_vec();
        for (line, from) in self.page.iter_mut().skip(to[0]).zip(&before) {
            for (cell, from) in line.iter_mut().skip(to[1]).zip(&from[area.1.clone()]) {
                *cell = from.clone();
            }
        }
    }

    /// Edits each line between the margins, from a column on.
    fn edit_lines(&mut self, edit: Edit, from: usize) {
        for line in &mut self.page[self.top..=self.bottom] {
            edit.edit_line(line, from, || BLANK);
        }
    }

    fn edit(&mut self, edit: Edit) {
        let margins = self.top..self.bottom + 1;
        edit.edit_line(&mut self.page[self.line], self.column, || BLANK);
        edit.edit_page(&mut self.page, self.line, margins, || vec![BLANK; COLUMNS]);
    }

    fn escape(&mut self, code: EscCode) {
        match code {
            EscCode::Index => self.next_line(),
            EscCode::NextLine => {
                self.next_line();
                self.column = 0;
            }
            EscCode::ReverseIndex if self.line == self.top => self.edit(Edit::ScrollDown(1)),
            EscCode::ReverseIndex => self.line = self.line.saturating_sub(1),
            EscCode::DecSaveCursorPosition => self.saved = (self.line, self.column),
            EscCode::DecRestoreCursorPosition => (self.line, self.column) = self.saved,
            _ => {}
        }
    }
}

fn main() -> Result<(), Box<dyn error::Error>> {
    let file = fs::File::open(env::args().nth(1).ok_or("terminal FILE")?)?;
    let mut terminal = Terminal {
        page: vec![vec![BLANK; COLUMNS]; LINES],
        bottom: LINES - 1,
        ..Terminal::default()
    };
    let parser = Parser::new().as_terminals();
    parser.read_to_end(file, |event| match event {
        Event::Text(text) => characters(text).for_each(|character| terminal.text(character)),
        Event::Csi(action) => terminal.act(action),
        Event::Esc(Esc::Code(code)) => terminal.escape(code),
        _ => {}
    })?;
    let mut pen = &Pen::new();
    for line in &terminal.page {
        for cell in line {
            if cell.pen != *pen {
                pen = &cell.pen;
                print!("{pen}");
            }
            print!("{}", cell.character);
        }
        println!();
    }
    let (line, column) = (terminal.line + 1, terminal.column + 1);
    println!("\x1b[0mline {line}, column {column}");
    Ok(())
}
