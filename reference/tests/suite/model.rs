//! Document 01 once more, with document 02's destinations, values, noise, splits and operations, as
//! slowly and plainly as it can be said, to hold the quick code against.

/// The condensed line of document 01 for bytes 8 to 85.
const LINE: &str = "8:48:2 9:0:6 10:5:6 11:3:6 12:7:2 13:6:2 14:10:6 15:15:6 16:13:6 17:17:2 \
    18:16:3 19:12:signed 20:20:6 21:8:2 22:9:1 23:18:2 24:19:1 25:2:2 26:21:7 27:24:6 28:25:2 \
    29:26:2 30:30:6 31:27:6 32:44:6 33:46:2 34:47:1 35:80:6 36:86:2 37:87:1 38:82:0..6 39:83:5 \
    40:88:0..20 41:84:6 42:90:6 43:96:2 44:97:1 45:92:0..6 46:93:5 47:98:0..20 48:94:6 49:57:3 \
    50-55:50-55:6 56:59:2 57:58:2 58:67:3 59-64:60-65:6 65:69:2 66:68:2 67:77:3 68-73:70-75:6 \
    74:79:2 75:78:2 76:33:1..20 77-81:34-38:6 82:40:6 83:41:2 84:42:6 85:43:2";

/// Its parameters of bytes 86 to 103.
const AMOUNTS: [u8; 18] = [
    1, 4, 11, 14, 22, 23, 28, 29, 56, 66, 76, 85, 95, 45, 31, 32, 81, 91,
];

/// The last destination of Table 3, Portamento Time.
const LAST_DESTINATION: u8 = 32;

/// 003's Appendix D in the same form. The parameter column is empty for bytes 0 to 9.
const SPLIT_LINE: &str = "0-5::6 6::6 7::6 8::7 9::7 10:0:7 11:1:signed 12:2:1 13:3:7 \
    14:4:signed 15:5:1 16:6:signed 17:7:2";

/// Parameter, least and greatest value of a byte place.
pub type Field = (Option<u8>, i16, i16);

/// The fields of all 134 places, as the papers tell them.
pub fn fields() -> Vec<Field> {
    let mut fields = vec![(None, 0, 63); 8];
    push_line(LINE, &mut fields);
    fields.extend(AMOUNTS.map(|parameter| (Some(parameter), -64, 63)));
    for _ in 0..10 {
        let destination = (None, 0, i16::from(LAST_DESTINATION));
        fields.extend([(None, 0, 20), (None, -64, 63), destination]);
    }
    fields
}

/// The fields of all 18 places of a split.
pub fn split_fields() -> Vec<Field> {
    let mut fields = Vec::new();
    push_line(SPLIT_LINE, &mut fields);
    fields
}

/// Adds the fields of a line, whose places go on from those so far.
fn push_line(line: &str, fields: &mut Vec<Field>) {
    for entry in line.split_whitespace() {
        let [places, parameters, range] = entry.split(':').collect::<Vec<_>>()[..] else {
            panic!("{entry}");
        };
        let (least, greatest) = match range {
            "signed" => (-32, 31),
            _ => match range.split_once("..") {
                Some((least, greatest)) => (least.parse().unwrap(), greatest.parse().unwrap()),
                None => (0, (1 << range.parse::<u32>().unwrap()) - 1),
            },
        };
        let mut parameters = (!parameters.is_empty()).then(|| span(parameters));
        for place in span(places) {
            assert_eq!(usize::from(place), fields.len());
            let parameter = parameters.as_mut().map(|span| span.next().unwrap());
            fields.push((parameter, least, greatest));
        }
    }
}

/// `50-55` or `48`.
fn span(text: &str) -> std::ops::RangeInclusive<u8> {
    let (first, last) = text.split_once('-').unwrap_or((text, text));
    first.parse().unwrap()..=last.parse().unwrap()
}

/// The places of fields with a sign: detune, the amounts, the amounts of the buses.
pub fn has_sign(place: usize) -> bool {
    place == 19 || (86..=103).contains(&place) || (0..10).any(|bus| place == 105 + 3 * bus)
}

/// The same of a split: both transposes and the balance.
pub fn split_has_sign(place: usize) -> bool {
    [11, 14, 16].contains(&place)
}

/// The value of a byte stored at a place: with its sign where the field has one, else as it stands.
pub fn value(place: usize, stored: u8) -> i16 {
    signed(has_sign(place), stored)
}

/// The same in a split.
pub fn split_value(place: usize, stored: u8) -> i16 {
    signed(split_has_sign(place), stored)
}

fn signed(has_sign: bool, stored: u8) -> i16 {
    let value = i16::from(stored);
    if has_sign && value >= 128 {
        value - 256
    } else {
        value
    }
}

/// Whether the range at a place has the value of a byte.
pub fn allows(fields: &[Field], place: usize, stored: u8) -> bool {
    contains(fields[place], value(place, stored))
}

/// The same in a split.
pub fn split_allows(fields: &[Field], place: usize, stored: u8) -> bool {
    contains(fields[place], split_value(place, stored))
}

fn contains((_, least, greatest): Field, value: i16) -> bool {
    (least..=greatest).contains(&value)
}

/// Answer, detail and value.
type Judged = (u8, usize, i16);

/// Start, end, what was judged, and how many bytes F8H..FFH stand between start and end.
type Told = (usize, usize, Judged, usize);

/// What every report holds.
pub fn reports(input: &[u8]) -> Vec<Told> {
    let fields = fields();
    let starts = (0..input.len()).filter(|&place| input[place] == 0xF0);
    let told = starts.map(|start| {
        let (end, judged) = one(&fields, input, start);
        (start, end, judged, noise(&input[start..end]))
    });
    told.collect()
}

/// How many of the bytes are F8H..FFH.
pub fn noise(bytes: &[u8]) -> usize {
    bytes.iter().filter(|&&byte| byte >= 0xF8).count()
}

/// The end of the message that starts here, and what it is judged.
fn one(fields: &[Field], input: &[u8], start: usize) -> (usize, Judged) {
    let mut place = start + 1;
    loop {
        match input.get(place) {
            None => return (place, (2, 0, 0)),
            Some(0xF7) => break,
            Some(0x80..=0xF6) => return (place, (3, 0, 0)),
            Some(_) => place += 1,
        }
    }
    let end = place + 1;
    let message: Vec<u8> = input[start..end]
        .iter()
        .copied()
        .filter(|&byte| byte < 0xF8)
        .collect();
    (end, judge(fields, &message))
}

/// The card from 4 on. The message is complete and has no real time.
fn judge(fields: &[Field], message: &[u8]) -> Judged {
    if message[1] != 0x10 {
        return (4, 0, 0);
    }
    if message[2] != 0x06 {
        return (5, 0, 0);
    }
    let opcode = message[3];
    let length = match opcode {
        0x01 | 0x0D => 275,
        0x02 => 43,
        0x03 => 351,
        0x04 | 0x06 | 0x07 => 7,
        0x0A => 6,
        0x0B => 9,
        0x0C => 5,
        0x0E => 8,
        _ => return (6, 0, 0),
    };
    if message.len() != length {
        return (7, 0, 0);
    }
    match operation(&message[3..length - 1]) {
        Some(true) => return (0, usize::from(opcode), 0),
        Some(false) => return (8, 0, 0),
        None => {}
    }
    let second = message[4];
    let place = fields.iter().position(|field| field.0 == Some(second));
    let allowed = match opcode {
        0x01 => second <= 99,
        0x02 => second <= 49,
        0x03 => second == 3,
        0x06 => place.is_some(),
        0x0B => second <= 9,
        _ => second == 0,
    };
    if !allowed {
        return (8, 0, 0);
    }
    let refusal = match opcode {
        0x06 => edit(fields, place.unwrap(), second, message[5]),
        0x0B => bus_edit(second, &message[5..8]),
        _ => dump(fields, opcode, &message[5..length - 2], message[length - 2]),
    };
    refusal.unwrap_or((0, usize::from(opcode), 0))
}

/// Whether an operation is allowed, from its opcode on; none for another kind.
pub fn operation(told: &[u8]) -> Option<bool> {
    let allowed = match *told {
        [0x04, 0 | 3 | 4, number] => number == 0,
        [0x04, 1, number] => number <= 99,
        [0x04, _, _] => false,
        [0x07, total, id] => (2..=6).contains(&total) && (0..=5).contains(&id),
        [0x0A, bank] => bank <= 9,
        [0x0C] => true,
        [0x0E, number, bank, id] => {
            number <= 99 && bank <= 9 && [0, 1, 2, 3, 4, 5, 0x7F].contains(&id)
        }
        _ => return None,
    };
    Some(allowed)
}

/// The byte that an edit of seven bits stores: from 64 on, bit 7 is set too. Parameter 21 is the
/// one exception.
pub fn stored(parameter: u8, value: u8) -> u8 {
    if parameter == 21 || value < 64 {
        value
    } else {
        value + 128
    }
}

fn edit(fields: &[Field], place: usize, parameter: u8, sent: u8) -> Option<Judged> {
    let stored = stored(parameter, sent);
    (!allows(fields, place, stored)).then_some((11, place, value(place, stored)))
}

fn bus_edit(bus: u8, bytes: &[u8]) -> Option<Judged> {
    let bus = usize::from(bus);
    if bytes[0] > 20 {
        return Some((11, 104 + 3 * bus, i16::from(bytes[0])));
    }
    if bytes[2] > LAST_DESTINATION {
        return Some((11, 106 + 3 * bus, i16::from(bytes[2])));
    }
    ((bytes[0] == 0) != (bytes[2] == 0)).then_some((12, bus, 0))
}

fn dump(fields: &[Field], opcode: u8, data: &[u8], sum: u8) -> Option<Judged> {
    if let Some(index) = data.iter().position(|&nibble| nibble > 15) {
        return Some((9, index, 0));
    }
    let packed: Vec<u8> = data.chunks(2).map(|pair| pair[0] + 16 * pair[1]).collect();
    let total: u32 = packed.iter().map(|&byte| u32::from(byte)).sum();
    if total % 128 != u32::from(sum) {
        return Some((10, 0, 0));
    }
    match opcode {
        0x02 => split(&packed),
        0x03 => None,
        _ => patch(fields, &packed),
    }
}

fn split(packed: &[u8]) -> Option<Judged> {
    let fields = split_fields();
    for (place, &stored) in packed.iter().enumerate() {
        if !split_allows(&fields, place, stored) {
            return Some((11, place, split_value(place, stored)));
        }
    }
    None
}

fn patch(fields: &[Field], packed: &[u8]) -> Option<Judged> {
    for (place, &stored) in packed.iter().enumerate() {
        if !allows(fields, place, stored) {
            return Some((11, place, value(place, stored)));
        }
    }
    (0..10)
        .find(|bus| (packed[104 + 3 * bus] == 0) != (packed[106 + 3 * bus] == 0))
        .map(|bus| (12, bus, 0))
}
