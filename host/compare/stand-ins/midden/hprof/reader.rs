//! Stand-in for the unpublished file: big-endian reads over the bytes of a dump, all in memory. It hands over bytes and nothing else.
use std::io::{self, ErrorKind};
use std::path::Path;
use std::sync::Arc;

use super::{Header, be_uint};

#[derive(Clone)]
pub struct View {
    bytes: Arc<Vec<u8>>,
    pub len: u64,
}

impl View {
    pub fn memory(bytes: Arc<Vec<u8>>) -> View {
        View { len: bytes.len() as u64, bytes }
    }

    pub fn file(path: &Path) -> io::Result<View> {
        Ok(View::memory(Arc::new(std::fs::read(path)?)))
    }
}

pub struct Reader {
    bytes: Arc<Vec<u8>>,
    at: usize,
    pub id_size: u32,
    pub file_size: u64,
    pub gzip: bool,
    pub member: Option<String>,
    pub progress: Option<Box<dyn FnMut(u64)>>,
}

impl Reader {
    pub fn open_at(view: &View, start: u64, id_size: u32) -> io::Result<Reader> {
        let bytes = Arc::clone(&view.bytes);
        Ok(Reader { bytes, at: start as usize, id_size, file_size: view.len, gzip: false, member: None, progress: None })
    }

    /// From the front, past the header: a text that ends with 0, the id size, a time.
    pub fn open_view(view: &View) -> io::Result<(Reader, Header)> {
        let mut reader = Reader::open_at(view, 0, 8)?;
        let text = view.bytes.iter().position(|&byte| byte == 0).ok_or(ErrorKind::UnexpectedEof)?;
        let format = String::from_utf8_lossy(reader.read_bytes(text)?).into_owned();
        reader.skip(1)?;
        let id_size = reader.u32()?;
        reader.id_size = id_size;
        let timestamp_ms = be_uint(reader.read_bytes(8)?);
        Ok((reader, Header { format, id_size, timestamp_ms }))
    }

    pub fn open(path: &Path) -> io::Result<(Reader, Header)> {
        Reader::open_view(&View::file(path)?)
    }

    pub fn at_eof(&mut self) -> bool {
        self.bytes.len() <= self.at
    }

    pub fn position(&self) -> u64 {
        self.at as u64
    }

    pub fn peek(&mut self) -> u8 {
        self.bytes[self.at]
    }

    pub fn read_bytes(&mut self, n: usize) -> io::Result<&[u8]> {
        let from = self.at;
        let read = self.bytes.get(from..from + n).ok_or(ErrorKind::UnexpectedEof)?;
        self.at += n;
        Ok(read)
    }

    pub fn skip(&mut self, n: u64) -> io::Result<()> {
        self.read_bytes(n as usize).map(|_| ())
    }

    pub fn u8(&mut self) -> io::Result<u8> {
        self.read_bytes(1).map(|read| read[0])
    }

    pub fn u16(&mut self) -> io::Result<u16> {
        self.read_bytes(2).map(|read| be_uint(read) as u16)
    }

    pub fn u32(&mut self) -> io::Result<u32> {
        self.read_bytes(4).map(|read| be_uint(read) as u32)
    }

    pub fn id(&mut self) -> io::Result<u64> {
        self.read_bytes(self.id_size as usize).map(be_uint)
    }
}
