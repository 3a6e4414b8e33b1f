//! Values in XDR: put at the end of bytes, and taken from the front of a reply.

/// What is wrong with a reply, a connection or an argument is said in words.
pub type Outcome<T> = Result<T, String>;

pub type Stateid = [u8; 16];

pub trait Put {
    fn put_word(&mut self, number: u32);
    fn put_long(&mut self, number: u64);
    fn put_opaque(&mut self, bytes: &[u8]);
}

impl Put for Vec<u8> {
    fn put_word(&mut self, number: u32) {
        self.extend_from_slice(&number.to_be_bytes());
    }

    fn put_long(&mut self, number: u64) {
        self.extend_from_slice(&number.to_be_bytes());
    }

    fn put_opaque(&mut self, bytes: &[u8]) {
        self.put_word(bytes.len() as u32);
        self.extend_from_slice(bytes);
        self.resize(self.len() + padding(bytes.len()), 0);
    }
}

fn padding(length: usize) -> usize {
    (4 - length % 4) % 4
}

/// What is left of a reply.
pub struct Reader<'a>(pub &'a [u8]);

impl<'a> Reader<'a> {
    pub fn bytes(&mut self, count: usize) -> Outcome<&'a [u8]> {
        let (taken, rest) = self.0.split_at_checked(count).ok_or("the reply is too short")?;
        self.0 = rest;
        Ok(taken)
    }

    fn array<const COUNT: usize>(&mut self) -> Outcome<[u8; COUNT]> {
        let (taken, rest) = self.0.split_first_chunk().ok_or("the reply is too short")?;
        self.0 = rest;
        Ok(*taken)
    }

    pub fn word(&mut self) -> Outcome<u32> {
        Ok(u32::from_be_bytes(self.array()?))
    }

    pub fn long(&mut self) -> Outcome<u64> {
        Ok(u64::from_be_bytes(self.array()?))
    }

    pub fn stateid(&mut self) -> Outcome<Stateid> {
        self.array()
    }

    pub fn opaque(&mut self) -> Outcome<&'a [u8]> {
        let length = self.word()? as usize;
        let taken = self.bytes(length)?;
        self.bytes(padding(length))?;
        Ok(taken)
    }

    pub fn expect(&mut self, what: &str, wanted: u32) -> Outcome<()> {
        match self.word()? {
            got if got == wanted => Ok(()),
            got => Err(format!("{what} is {got}, not {wanted}")),
        }
    }

    pub fn end(&self) -> Outcome<()> {
        match self.0.len() {
            0 => Ok(()),
            count => Err(format!("the reply has {count} bytes too many")),
        }
    }
}
