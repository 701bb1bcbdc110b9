//! A lent buffer with a margin on either side, so that a byte written outside it is seen.

const MARGIN: usize = 64;
const MARGIN_BYTE: u8 = 0xC3;

pub struct Lent {
    bytes: Vec<u8>,
}

impl Lent {
    pub fn new(first: &[u8]) -> Lent {
        let mut bytes = vec![MARGIN_BYTE; first.len() + 2 * MARGIN];
        bytes[MARGIN..MARGIN + first.len()].copy_from_slice(first);
        Lent { bytes }
    }

    fn end(&self) -> usize {
        self.bytes.len() - MARGIN
    }

    pub fn content(&self) -> &[u8] {
        &self.bytes[MARGIN..self.end()]
    }

    pub fn buffer(&mut self) -> &mut [u8] {
        let end = self.end();
        &mut self.bytes[MARGIN..end]
    }

    pub fn margins_stay(&self) -> bool {
        let margins = [&self.bytes[..MARGIN], &self.bytes[self.end()..]];
        margins.iter().all(|margin| margin.iter().all(|&byte| byte == MARGIN_BYTE))
    }
}

#[test]
fn a_byte_outside_is_seen() {
    for at in [MARGIN - 1, MARGIN + 5, 0, 2 * MARGIN + 4] {
        let mut lent = Lent::new(&[0; 5]);
        assert!(lent.margins_stay());
        lent.buffer().fill(9);
        assert!(lent.margins_stay());
        lent.bytes[at] ^= 1;
        assert!(!lent.margins_stay(), "byte {at}");
    }
}
