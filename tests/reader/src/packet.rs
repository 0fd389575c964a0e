//! Packets (4.1, 4.2): bytes read as a packet, its tags and its fields.

/// The most content bytes of a message packet: 4,096 less the message header.
pub const MOST_CONTENT: usize = 4080;
/// The most content bytes of a whole message.
pub const MOST_MESSAGE: usize = 32_768;
/// Length of the message header (Table 3), and of a field's FID and length (Table 5).
pub const MESSAGE_HEADER: usize = 16;
pub const FIELD_HEADER: usize = 6;

pub const KEEP_ALIVE: u8 = 0x04;
pub const TRADE_DATE: u8 = 0x05;
/// A packet's place in its message, from 0 (document 02, No. 10).
pub const PLACE: u8 = 0x70;

/// Wire integers: unsigned, high byte first. The callers have looked at the length.
pub fn u16_at(bytes: &[u8], at: usize) -> u16 {
    u16::from_be_bytes([bytes[at], bytes[at + 1]])
}

pub fn u32_at(bytes: &[u8], at: usize) -> u32 {
    u32::from_be_bytes([bytes[at], bytes[at + 1], bytes[at + 2], bytes[at + 3]])
}

/// What bytes begin with. `length` is that of the whole packet; bytes behind it aren't looked at.
#[derive(Clone, Copy, Debug, PartialEq, Eq)]
pub enum Packet<'a> {
    /// How many bytes are certainly missing.
    Short(usize),
    /// Rows 1 to 7 of the refusal table.
    Refused(u8),
    /// Extension and body are kept unread.
    Skipped {
        kind: u8,
        extension: &'a [u8],
        body: &'a [u8],
        length: usize,
    },
    Link {
        kind: u8,
        extension: &'a [u8],
        mark: Option<u32>,
        place: Option<u16>,
        length: usize,
    },
    Message(MessagePacket<'a>),
}

#[derive(Clone, Copy, Debug, PartialEq, Eq)]
pub struct MessagePacket<'a> {
    pub extension: &'a [u8],
    /// The trade date, tag 0x05.
    pub mark: Option<u32>,
    /// The packet's place in its message, tag 0x70.
    pub place: Option<u16>,
    pub tid: u32,
    pub chain: u8,
    pub series: u16,
    pub number: u32,
    pub count: u16,
    pub content: &'a [u8],
    /// Where the content begins.
    pub content_at: usize,
    pub length: usize,
}

/// Reads the packet at the front of `bytes`. Rows 1 and 3 need four bytes alone; then short; then 2 and 4 to 7.
pub fn read(bytes: &[u8]) -> Packet<'_> {
    if bytes.len() < 4 {
        return Packet::Short(4 - bytes.len());
    }
    let kind = bytes[0];
    let extension_length = usize::from(bytes[1]);
    let body_length = usize::from(u16_at(bytes, 2));
    if extension_length > 127 {
        return Packet::Refused(1);
    }
    if kind == 1 && body_length != 0 && !(MESSAGE_HEADER..=MESSAGE_HEADER + MOST_CONTENT).contains(&body_length) {
        return Packet::Refused(3);
    }
    let body_at = 4 + extension_length;
    let length = body_at + body_length;
    if bytes.len() < length {
        return Packet::Short(length - bytes.len());
    }
    let extension = &bytes[4..body_at];
    let body = &bytes[body_at..length];
    if kind > 1 || (kind == 0 && !body.is_empty()) {
        return Packet::Skipped { kind, extension, body, length };
    }
    let Ok((mark, place)) = date_and_place(extension) else {
        return Packet::Refused(2);
    };
    if body.is_empty() {
        return Packet::Link { kind, extension, mark, place, length };
    }
    let (header, content) = body.split_at(MESSAGE_HEADER);
    let packet = MessagePacket {
        extension,
        mark,
        place,
        tid: u32_at(header, 1),
        chain: header[5],
        series: u16_at(header, 6),
        number: u32_at(header, 8),
        count: u16_at(header, 12),
        content,
        content_at: body_at + MESSAGE_HEADER,
        length,
    };
    if header[0] != 1 {
        Packet::Refused(4)
    } else if !b"SFCL".contains(&packet.chain) {
        Packet::Refused(5)
    } else if usize::from(u16_at(header, 14)) != content.len() {
        Packet::Refused(6)
    } else if count_fields(content) != Some(usize::from(packet.count)) {
        Packet::Refused(7)
    } else {
        Packet::Message(packet)
    }
}

/// As many bytes as the first four say; none where they aren't there.
pub fn said_length(bytes: &[u8]) -> Option<usize> {
    let head = bytes.get(..4)?;
    Some(4 + usize::from(head[1]) + usize::from(u16_at(head, 2)))
}

/// The packets that stand one behind the other, each as long as its first four bytes say.
pub fn cut_apart<P: for<'a> From<&'a [u8]>>(mut bytes: &[u8]) -> Vec<P> {
    let mut packets = vec![];
    while let Some(length) = said_length(bytes) {
        packets.push(bytes[..length].into());
        bytes = &bytes[length..];
    }
    packets
}

/// The length that Table 2 gives the tag, or document 02 the place, if it is known.
pub fn known_tag(kind: u8) -> Option<usize> {
    match kind {
        0x00 | 0x04 => Some(0),
        0x01 | 0x05 => Some(4),
        0x02 | 0x03 => Some(1),
        0x06 | PLACE => Some(2),
        _ => None,
    }
}

/// A tag run, tag by tag: kind and data, or an error where it doesn't end with the extension.
pub struct Tags<'a>(&'a [u8]);

pub fn tags(extension: &[u8]) -> Tags<'_> {
    Tags(extension)
}

impl<'a> Iterator for Tags<'a> {
    type Item = Result<(u8, &'a [u8]), ()>;

    fn next(&mut self) -> Option<Self::Item> {
        let run = std::mem::take(&mut self.0);
        match run {
            [] => None,
            [kind, length, rest @ ..] if rest.len() >= usize::from(*length) => {
                let (data, behind) = rest.split_at(usize::from(*length));
                self.0 = behind;
                Some(Ok((*kind, data)))
            }
            _ => Some(Err(())),
        }
    }
}

/// The trade date and the place of a tag run, as far as it has them; an error for row 2: the run doesn't end with the
/// extension, a known tag has another length, or 0x05 or 0x70 stands twice.
pub fn date_and_place(extension: &[u8]) -> Result<(Option<u32>, Option<u16>), ()> {
    let (mut mark, mut place) = (None, None);
    for tag in tags(extension) {
        let (kind, data) = tag?;
        if known_tag(kind).is_some_and(|length| length != data.len()) {
            return Err(());
        }
        let twice = match kind {
            TRADE_DATE => mark.replace(u32_at(data, 0)).is_some(),
            PLACE => place.replace(u16_at(data, 0)).is_some(),
            _ => false,
        };
        if twice {
            return Err(());
        }
    }
    Ok((mark, place))
}

/// The mark of any bytes: the first tag 0x05 of those that are whole, if it has four bytes of data.
pub fn mark(extension: &[u8]) -> Option<u32> {
    let (_, data) = tags(extension).map_while(Result::ok).find(|(kind, _)| *kind == TRADE_DATE)?;
    Some(u32::from_be_bytes(data.try_into().ok()?))
}

/// Is there a tag 0x04 among those that are whole?
pub fn keeps_alive(extension: &[u8]) -> bool {
    tags(extension).map_while(Result::ok).any(|(kind, _)| kind == KEEP_ALIVE)
}

/// A data field (Table 5).
#[derive(Clone, Copy, Debug, PartialEq, Eq)]
pub struct Field<'a> {
    pub fid: u32,
    pub value: &'a [u8],
}

/// The fields of content. Stops with an error where a field isn't whole.
pub struct Fields<'a>(&'a [u8]);

pub fn fields(content: &[u8]) -> Fields<'_> {
    Fields(content)
}

impl<'a> Iterator for Fields<'a> {
    type Item = Result<Field<'a>, ()>;

    fn next(&mut self) -> Option<Self::Item> {
        let run = std::mem::take(&mut self.0);
        if run.is_empty() {
            return None;
        }
        if run.len() < FIELD_HEADER {
            return Some(Err(()));
        }
        let (header, rest) = run.split_at(FIELD_HEADER);
        let length = usize::from(u16_at(header, 4));
        if rest.len() < length {
            return Some(Err(()));
        }
        let (value, behind) = rest.split_at(length);
        self.0 = behind;
        Some(Ok(Field { fid: u32_at(header, 0), value }))
    }
}

/// The number of fields, if content is whole fields.
pub fn count_fields(content: &[u8]) -> Option<usize> {
    let mut count = 0;
    for field in fields(content) {
        field.ok()?;
        count += 1;
    }
    Some(count)
}

/// The value of field `i`, counted from 0, of the packet at the front of `bytes`; none from the field count on, and
/// none in bytes that are no message packet.
pub fn field(bytes: &[u8], i: usize) -> Option<&[u8]> {
    match read(bytes) {
        Packet::Message(packet) => packet.field(i).map(|field| field.value),
        _ => None,
    }
}

impl<'a> MessagePacket<'a> {
    pub fn field(&self, i: usize) -> Option<Field<'a>> {
        fields(self.content).nth(i)?.ok()
    }
}
