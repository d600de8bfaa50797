//! A row of the sheet, and its bytes: low byte first, block 4, first premise 8,
//! last premise 8, files 4, dark 4.

/// The bytes of a row.
pub const ROW_BYTES: usize = 28;
/// The most rows that the program takes.
pub const MOST_ROWS: usize = 64;

/// A block's row: its premises go from `first` to `last`, both inclusive.
#[derive(Clone, Copy, Debug, Default, PartialEq, Eq)]
pub struct Row {
    pub block: u32,
    pub first: u64,
    pub last: u64,
    pub files: u32,
    pub dark: u32,
}

impl Row {
    pub fn bytes(&self) -> [u8; ROW_BYTES] {
        let mut bytes = [0; ROW_BYTES];
        bytes[0..4].copy_from_slice(&self.block.to_le_bytes());
        bytes[4..12].copy_from_slice(&self.first.to_le_bytes());
        bytes[12..20].copy_from_slice(&self.last.to_le_bytes());
        bytes[20..24].copy_from_slice(&self.files.to_le_bytes());
        bytes[24..28].copy_from_slice(&self.dark.to_le_bytes());
        bytes
    }

    pub fn read(bytes: &[u8; ROW_BYTES]) -> Row {
        let number = |from: usize, to: usize| {
            let places = bytes[from..to].iter().enumerate();
            places
                .map(|(place, byte)| u64::from(*byte) << (8 * place))
                .sum::<u64>()
        };
        Row {
            block: number(0, 4) as u32,
            first: number(4, 12),
            last: number(12, 20),
            files: number(20, 24) as u32,
            dark: number(24, 28) as u32,
        }
    }
}

/// The rows of a sheet's bytes, or what is wrong with their number.
pub fn read_rows(bytes: &[u8]) -> Result<Vec<Row>, String> {
    let most = MOST_ROWS * ROW_BYTES;
    if bytes.len() > most {
        return Err(format!(
            "the rows have more than {most} bytes; give at most {MOST_ROWS} rows of {ROW_BYTES}"
        ));
    }
    let rows = bytes.chunks_exact(ROW_BYTES);
    if !rows.remainder().is_empty() {
        return Err(format!("the rows are no multiple of {ROW_BYTES} bytes"));
    }
    let read = |row: &[u8]| Row::read(row.try_into().expect("a chunk is a row long"));
    Ok(rows.map(read).collect())
}
