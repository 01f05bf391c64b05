//! The calls that libhost.a exports to a C host: the card's, the gateway's, and those for columns.

use crate::lent::Lent;
use reference::calls::Call;
use reference::direction::Direction;
use reference::limits::Limits;
use reference::scalars::Scalar;

/// What a call only reads, and what it writes to. The bytes behind a pointer are counted by the
/// number after it; after those of a scalar stands its sign.
type Read = *const u8;
type Write = *mut u8;

/// Declares each call of the card and its fellow of the gateway, which has the same signature.
macro_rules! calls {
    ($($call:ident: $card:ident, $gateway:ident ($($part:ty),*);)*) => {
        #[link(name = "host", kind = "static")]
        extern "C" {
            $(
                fn $card($(_: $part),*) -> u64;
                fn $gateway($(_: $part),*) -> u64;
            )*
        }

        struct Calls {
            $($call: unsafe extern "C" fn($($part),*) -> u64,)*
        }

        const CARD: Calls = Calls { $($call: $card,)* };
        const GATEWAY: Calls = Calls { $($call: $gateway,)* };
    };
}

calls! {
    row: sheets_row, sheets_gateway_row
        (Read, usize, u32, u32, Write, usize);
    row_down: sheets_row_down, sheets_gateway_row_down
        (Read, usize, u32, u32, Write, usize);
    joint: sheets_joint, sheets_gateway_joint
        (Read, usize, u32, Read, usize, u32, Write, usize, Write, usize);
    joint_codes: sheets_joint_codes, sheets_gateway_joint_codes
        (Read, usize, u32, Read, usize, u32, Write, usize, Write, usize, Write, usize, Write, usize);
    plan_j: sheets_plan_j, sheets_gateway_plan_j
        (Read, usize, u32, Read, usize, u32, Write, usize);
    plan_i: sheets_plan_i, sheets_gateway_plan_i
        (Read, usize, u32, Read, usize, u32, u32, u32, Write, usize);
    plan_i_down: sheets_plan_i_down, sheets_gateway_plan_i_down
        (Read, usize, u32, Read, usize, u32, u32, u32, Write, usize);
    cheapest: sheets_cheapest, sheets_gateway_cheapest
        (Read, usize, u32, Read, usize, u32, u32, Write, usize);
    read: sheets_read, sheets_gateway_read
        (Read, usize);
}

// The calls for columns, which have no limits.
extern "C" {
    fn sheets_pack(_: usize, _: Read, _: usize, _: Read, _: usize, _: Write, _: usize) -> u64;
    fn sheets_unpack(_: usize, _: Read, _: usize, _: Write, _: usize, _: Write, _: usize) -> u64;
}

// The calls that the gateway has not.
extern "C" {
    fn sheets_next_limit(_: Read, _: usize, _: u32, _: Read, _: usize, _: u32, _: u32) -> u64;
    fn sheets_dearest(_: u32, _: Write, _: usize) -> u64;
}

/// Makes the call of the set with these limits, with these inputs and buffers. The inputs come from
/// pointers that may be written through, so that a call that writes to one is found out.
pub fn make(limits: Limits, call: &Call, inputs: &mut [Lent], buffers: &mut [Lent]) -> u64 {
    let calls = match limits {
        Limits::Card => CARD,
        Limits::Gateway => GATEWAY,
    };
    // SAFETY: each pointer begins as many live bytes as the number after it says, and no two of
    // these slices overlap.
    match (call, inputs, buffers) {
        (Call::Row { direction, scalar, m, .. }, [bytes], [digits]) => {
            let ((scalar, n, sign), (digits, places)) = (signed(bytes, scalar), digits.raw());
            let row = match direction {
                Direction::Up => calls.row,
                Direction::Down => calls.row_down,
            };
            unsafe { row(scalar, n, sign, *m, digits, places) }
        }
        (Call::Joint { k, l, .. }, [k_bytes, l_bytes], [k_digits, l_digits]) => {
            let ((k, kn, ks), (l, ln, ls)) = (signed(k_bytes, k), signed(l_bytes, l));
            let ((k_digits, k_places), (l_digits, l_places)) = (k_digits.raw(), l_digits.raw());
            unsafe { (calls.joint)(k, kn, ks, l, ln, ls, k_digits, k_places, l_digits, l_places) }
        }
        (
            Call::JointCodes { k, l, .. },
            [k_bytes, l_bytes],
            [k_digits, l_digits, k_codes, l_codes],
        ) => {
            let ((k, kn, ks), (l, ln, ls)) = (signed(k_bytes, k), signed(l_bytes, l));
            let ((k_digits, k_places), (l_digits, l_places)) = (k_digits.raw(), l_digits.raw());
            let ((k_codes, k_room), (l_codes, l_room)) = (k_codes.raw(), l_codes.raw());
            unsafe {
                (calls.joint_codes)(
                    k, kn, ks, l, ln, ls, k_digits, k_places, l_digits, l_places, k_codes, k_room,
                    l_codes, l_room,
                )
            }
        }
        (Call::PlanJ { k, l, .. }, [k_bytes, l_bytes], [sheet]) => {
            let ((k, kn, ks), (l, ln, ls)) = (signed(k_bytes, k), signed(l_bytes, l));
            let (sheet, room) = sheet.raw();
            unsafe { (calls.plan_j)(k, kn, ks, l, ln, ls, sheet, room) }
        }
        (Call::PlanI { direction, k, l, m1, m2, .. }, [k_bytes, l_bytes], [sheet]) => {
            let ((k, kn, ks), (l, ln, ls)) = (signed(k_bytes, k), signed(l_bytes, l));
            let (sheet, room) = sheet.raw();
            let plan_i = match direction {
                Direction::Up => calls.plan_i,
                Direction::Down => calls.plan_i_down,
            };
            unsafe { plan_i(k, kn, ks, l, ln, ls, *m1, *m2, sheet, room) }
        }
        (Call::Cheapest { k, l, limit, .. }, [k_bytes, l_bytes], [sheet]) => {
            let ((k, kn, ks), (l, ln, ls)) = (signed(k_bytes, k), signed(l_bytes, l));
            let (sheet, room) = sheet.raw();
            unsafe { (calls.cheapest)(k, kn, ks, l, ln, ls, *limit, sheet, room) }
        }
        (Call::Read { .. }, [sheet], []) => {
            let (sheet, n) = sheet.raw();
            unsafe { (calls.read)(sheet, n) }
        }
        (Call::Pack { columns, .. }, [k_digits, l_digits], [packed]) => {
            let ((k, k_places), (l, l_places)) = (k_digits.raw(), l_digits.raw());
            let (packed, room) = packed.raw();
            unsafe { sheets_pack(*columns, k, k_places, l, l_places, packed, room) }
        }
        (Call::Unpack { columns, .. }, [packed], [k_digits, l_digits]) => {
            let (packed, room) = packed.raw();
            let ((k, k_places), (l, l_places)) = (k_digits.raw(), l_digits.raw());
            unsafe { sheets_unpack(*columns, packed, room, k, k_places, l, l_places) }
        }
        (Call::NextLimit { k, l, limit }, [k_bytes, l_bytes], []) => {
            let ((k, kn, ks), (l, ln, ls)) = (signed(k_bytes, k), signed(l_bytes, l));
            unsafe { sheets_next_limit(k, kn, ks, l, ln, ls, *limit) }
        }
        (Call::Dearest { bits, .. }, [], [scalar]) => {
            let (scalar, room) = scalar.raw();
            unsafe { sheets_dearest(*bits, scalar, room) }
        }
        _ => unreachable!("every call has its own inputs and buffers"),
    }
}

/// A scalar's lent bytes as C takes them, and its sign.
fn signed(bytes: &mut Lent, scalar: &Scalar) -> (*const u8, usize, u32) {
    let (at, n) = bytes.raw();
    (at, n, scalar.sign)
}
