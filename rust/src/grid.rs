//! What actions mean on a page of so many lines and columns, counted from 0.

use crate::{Cursor, Edit, EraseInDisplay, EraseInLine, OneBased};
use core::ops::Range;

fn steps(count: u32) -> usize {
    usize::try_from(count).unwrap_or(usize::MAX)
}

impl OneBased {
    /// The place in a list of so many, counted from 0: for a number beyond the end the last place, as in terminals, and 0 for an empty
    /// list.
    pub fn as_index(&self, count: usize) -> usize {
        let place = usize::try_from(self.as_zero_based()).unwrap_or(usize::MAX);
        place.min(count.saturating_sub(1))
    }
}

impl EraseInLine {
    /// The columns that are erased in a line of so many, with the cursor in one of them.
    pub fn columns(&self, cursor: usize, count: usize) -> Range<usize> {
        match self {
            EraseInLine::EraseToEndOfLine => cursor.min(count)..count,
            EraseInLine::EraseToStartOfLine => 0..count.min(cursor.saturating_add(1)),
            EraseInLine::EraseLine => 0..count,
        }
    }
}

impl EraseInDisplay {
    /// The lines that are erased completely on a page of so many, besides the cursor's line.
    ///
    /// ```
    /// use csicodec::{EraseInDisplay, EraseInLine};
    ///
    /// let erase = EraseInDisplay::EraseToEndOfDisplay;
    /// assert_eq!(erase.lines(4, 24), 5..24);
    /// assert_eq!(erase.in_line().map(|line| line.columns(10, 80)), Some(10..80));
    /// ```
    pub fn lines(&self, cursor: usize, count: usize) -> Range<usize> {
        match self {
            EraseInDisplay::EraseToEndOfDisplay => count.min(cursor.saturating_add(1))..count,
            EraseInDisplay::EraseToStartOfDisplay => 0..cursor.min(count),
            EraseInDisplay::EraseDisplay => 0..count,
            EraseInDisplay::EraseScrollback => 0..0,
        }
    }

    /// What is erased in the cursor's line: nothing, if the scrollback is erased.
    pub fn in_line(&self) -> Option<EraseInLine> {
        match self {
            EraseInDisplay::EraseToEndOfDisplay => Some(EraseInLine::EraseToEndOfLine),
            EraseInDisplay::EraseToStartOfDisplay => Some(EraseInLine::EraseToStartOfLine),
            EraseInDisplay::EraseDisplay => Some(EraseInLine::EraseLine),
            EraseInDisplay::EraseScrollback => None,
        }
    }
}

impl Cursor {
    /// The line and the column to which this moves the cursor from a place, on a page of so many lines and columns; `None` if it
    /// doesn't move the cursor, or if that depends on tab stops or on a saved place. A number beyond the page means its last line or
    /// column. A cursor behind the last column, where it waits to wrap, counts as on the last one for moves along the line. Margins are
    /// ignored: a terminal that has them stops `Up` and `Down` there.
    ///
    /// ```
    /// use csicodec::Cursor;
    ///
    /// assert_eq!(Cursor::Left(3).target((4, 80), (24, 80)), Some((4, 76)));
    /// assert_eq!(Cursor::Down(300).target((4, 80), (24, 80)), Some((23, 80)));
    /// assert_eq!(Cursor::SaveCursor.target((4, 80), (24, 80)), None);
    /// ```
    pub fn target(&self, from: (usize, usize), page: (usize, usize)) -> Option<(usize, usize)> {
        let ((line, column), (lines, columns)) = (from, page);
        let here = column.min(columns.saturating_sub(1));
        let (line, column) = match *self {
            Cursor::Up(n) | Cursor::LinePositionBackward(n) => {
                (line.saturating_sub(steps(n)), column)
            }
            Cursor::Down(n) | Cursor::LinePositionForward(n) => {
                (line.saturating_add(steps(n)), column)
            }
            Cursor::Left(n) | Cursor::CharacterPositionBackward(n) => {
                (line, here.saturating_sub(steps(n)))
            }
            Cursor::Right(n) | Cursor::CharacterPositionForward(n) => (
                line,
                here.saturating_add(steps(n)).min(columns.saturating_sub(1)),
            ),
            Cursor::NextLine(n) => (line.saturating_add(steps(n)), 0),
            Cursor::PrecedingLine(n) => (line.saturating_sub(steps(n)), 0),
            Cursor::CharacterAbsolute(col) | Cursor::CharacterPositionAbsolute(col) => {
                (line, col.as_index(columns))
            }
            Cursor::LinePositionAbsolute(number) => (steps(number).saturating_sub(1), column),
            Cursor::Position { line, col } | Cursor::CharacterAndLinePosition { line, col } => {
                (line.as_index(lines), col.as_index(columns))
            }
            Cursor::ForwardTabulation(_)
            | Cursor::BackwardTabulation(_)
            | Cursor::LineTabulation(_)
            | Cursor::TabulationControl(_)
            | Cursor::TabulationClear(_)
            | Cursor::SetTopAndBottomMargins { .. }
            | Cursor::SetLeftAndRightMargins { .. }
            | Cursor::ActivePositionReport { .. }
            | Cursor::SaveCursor
            | Cursor::RestoreCursor
            | Cursor::RequestActivePositionReport
            | Cursor::CursorStyle(_) => return None,
        };
        Some((line.min(lines.saturating_sub(1)), column))
    }
}

/// Inserts so many blanks in front, and drops as many items at the end.
fn insert<T>(items: &mut [T], count: usize, blank: impl FnMut() -> T) {
    let count = count.min(items.len());
    items.rotate_right(count);
    items[..count].fill_with(blank);
}

/// Removes so many items from the front, and adds as many blanks at the end.
fn delete<T>(items: &mut [T], count: usize, blank: impl FnMut() -> T) {
    let rest = items.len() - count.min(items.len());
    items.rotate_left(items.len() - rest);
    items[rest..].fill_with(blank);
}

impl Edit {
    /// Edits the cells of the cursor's line, from the first column to the last one. A cursor behind them counts as on the last one.
    ///
    /// ```
    /// use csicodec::Edit;
    ///
    /// let mut line = [1, 2, 3, 4];
    /// Edit::InsertCharacter(2).edit_line(&mut line, 1, || 0);
    /// assert_eq!(line, [1, 0, 0, 2]);
    /// Edit::DeleteCharacter(1).edit_line(&mut line, 0, || 0);
    /// assert_eq!(line, [0, 0, 2, 0]);
    /// ```
    pub fn edit_line<T>(&self, line: &mut [T], cursor: usize, blank: impl FnMut() -> T) {
        let here = cursor.min(line.len().saturating_sub(1));
        let end = |count| here.saturating_add(steps(count)).min(line.len());
        let erased = match *self {
            Edit::InsertCharacter(count) => return insert(&mut line[here..], steps(count), blank),
            Edit::DeleteCharacter(count) => return delete(&mut line[here..], steps(count), blank),
            Edit::EraseCharacter(count) => here..end(count),
            Edit::EraseInLine(part) => part.columns(here, line.len()),
            Edit::EraseInDisplay(part) => match part.in_line() {
                Some(part) => part.columns(here, line.len()),
                None => return,
            },
            Edit::InsertLine(_)
            | Edit::DeleteLine(_)
            | Edit::ScrollUp(_)
            | Edit::ScrollDown(_)
            | Edit::Repeat(_) => return,
        };
        line[erased].fill_with(blank);
    }

    /// Edits whole lines of a page, from the first to the last one; those in `margins` scroll. If the cursor's line is outside of the
    /// margins, no line is inserted or deleted there, as on DEC's terminals. For `EraseInDisplay`
    /// [`edit_line`](Edit::edit_line) edits the cursor's line.
    ///
    /// ```
    /// use csicodec::Edit;
    ///
    /// let mut page = [1, 2, 3, 4];
    /// Edit::DeleteLine(1).edit_page(&mut page, 1, 0..3, || 0);
    /// assert_eq!(page, [1, 3, 0, 4]);
    /// Edit::ScrollDown(1).edit_page(&mut page, 1, 0..3, || 0);
    /// assert_eq!(page, [0, 1, 3, 4]);
    /// ```
    pub fn edit_page<T>(
        &self,
        page: &mut [T],
        cursor: usize,
        margins: Range<usize>,
        blank: impl FnMut() -> T,
    ) {
        let end = margins.end.min(page.len());
        let top = margins.start.min(end);
        let line = if margins.contains(&cursor) {
            cursor.min(end)
        } else {
            end
        };
        match *self {
            Edit::InsertLine(count) => insert(&mut page[line..end], steps(count), blank),
            Edit::DeleteLine(count) => delete(&mut page[line..end], steps(count), blank),
            Edit::ScrollUp(count) => delete(&mut page[top..end], steps(count), blank),
            Edit::ScrollDown(count) => insert(&mut page[top..end], steps(count), blank),
            Edit::EraseInDisplay(part) => {
                let lines = part.lines(cursor, page.len());
                page[lines].fill_with(blank);
            }
            Edit::InsertCharacter(_)
            | Edit::DeleteCharacter(_)
            | Edit::EraseCharacter(_)
            | Edit::EraseInLine(_)
            | Edit::Repeat(_) => {}
        }
    }
}
