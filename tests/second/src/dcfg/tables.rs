//! Objects by their keys and tables by their headers. 000, 1.2.2 and 1.2.4.

use super::judge::Judge;

impl<'a> Judge<'a> {
    /// For each data row of a table its cells in the columns of these names. The
    /// other cells are skipped. 000, 1.2.2.
    pub(super) fn table<const N: usize>(
        &mut self,
        table: usize,
        names: [&str; N],
    ) -> Vec<[Option<usize>; N]> {
        let Some((header, rows)) = self.array(table).split_first() else {
            self.faults.missing = true;
            return Vec::new();
        };
        let header = self.header(*header);
        let columns = names.map(|name| {
            let name = characters(name);
            header.iter().position(|column| column == &Some(&name[..]))
        });
        self.faults.missing |= columns.contains(&None);
        rows.iter().map(|row| self.row(*row, columns)).collect()
    }

    /// The columns' names; none for what is no string.
    pub(super) fn header(&mut self, header: usize) -> Vec<Option<&'a [u32]>> {
        let mut columns = Vec::new();
        let mut names = Vec::new();
        for cell in self.array(header) {
            let name = self.string(*cell);
            columns.push(name);
            if let (Some(name), Some(last)) = (name, self.values[*cell].last) {
                names.push((name, last));
            }
        }
        self.repeated(names.into_iter());
        columns
    }

    /// The cells of a row at these places.
    pub(super) fn row<const N: usize>(
        &mut self,
        row: usize,
        columns: [Option<usize>; N],
    ) -> [Option<usize>; N] {
        let cells = self.array(row);
        for (place, cell) in cells.iter().enumerate() {
            if !columns.contains(&Some(place)) {
                self.skip(*cell);
            }
        }
        let wanted = columns.map(|column| cells.get(column?).copied());
        self.faults.missing |= wanted.contains(&None);
        wanted
    }

    /// The values of an object's keys of these names. The others are skipped.
    pub(super) fn keys<const N: usize>(
        &mut self,
        value: usize,
        names: [&str; N],
    ) -> [Option<usize>; N] {
        let keys = self.object(value);
        let names = names.map(characters);
        for key in keys {
            if !names.contains(&key.characters) {
                if let Some(value) = key.value {
                    self.skip(value);
                }
            }
        }
        let wanted = names.map(|name| keys.iter().find(|key| key.characters == name)?.value);
        self.faults.missing |= wanted.contains(&None);
        wanted
    }
}

fn characters(name: &str) -> Vec<u32> {
    name.chars().map(u32::from).collect()
}
