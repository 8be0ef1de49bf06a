//! The listing of the program `check_values`: every check value that 002, 003 and, of
//! region 5, R7-97 print for the equations in use, beside the value computed.
//!
//! A line has four fields with one space between:
//!
//!     TABLE QUANTITY(ARGUMENTS) PRINTED COMPUTED
//!
//! TABLE is the document, a hyphen and its table (002-A3, R7-97-42, 003-9); the value of
//! h2ab stands beside 003's Table 5. ARGUMENTS are the printed decimals, a comma between
//! two and no space: (p,T), (ρ,T), (p,h), (p,s), (h,s), (T), (p), (h) or (s). Both numbers
//! are written 0.DIGITSEk, the value being 0.DIGITS · 10ᵏ with a first digit that is
//! not 0, DIGITS as many as the paper prints (10 in 003, else 9), and k in decimal
//! with `-` before it if negative and no sign otherwise; no value is negative.
//! COMPUTED is the exact binary value rounded to that many digits, ties to even.
//! Tables come in the order of the papers, R7-97's in the place of 002's A15; points in the
//! order of a table's columns or rows; a point's properties in the order v, h, u, s, cp, w;
//! in 002-A10, whose points are (ρ,T), p stands in the place of v. The last line is
//! `M of N check values agree`: M lines have PRINTED and COMPUTED alike.

use crate::backward::{p1_hs, p2_hs, t1_ph, t1_ps, t2_ph, t2_ps, Subregion};
use crate::basic::{
    b23_pressure, b23_temperature, b2ab_enthalpy, b2bc_pressure, Point, Properties, Region,
};
use crate::helmholtz::DensePoint;
use crate::saturation::{saturation_pressure, saturation_temperature, SaturationPressure};
use Subregion::{A, B, C};

/// One printed check value and what is computed for it.
struct Check {
    table: &'static str,
    call: String,
    printed: &'static str,
    computed: f64,
}

/// A line for each check value, then how many agree.
pub fn listing() -> String {
    let checks = checks();
    let mut text = String::new();
    let mut agreed = 0;
    for check in &checks {
        let computed = rounded(check.computed, digits(check.printed));
        agreed += usize::from(computed == check.printed);
        let Check { table, call, printed, .. } = check;
        text.push_str(&format!("{table} {call} {printed} {computed}\n"));
    }
    text.push_str(&format!("{agreed} of {} check values agree\n", checks.len()));
    text
}

/// How many digits stand between `0.` and `E`.
fn digits(printed: &str) -> usize {
    printed.find('E').map_or(0, |at| at - 2)
}

/// A positive number rounded to so many digits, as 0.DIGITSEk.
fn rounded(x: f64, digits: usize) -> String {
    let scientific = format!("{x:.*e}", digits - 1);
    let (mantissa, exponent) = scientific.split_once('e').unwrap_or((&scientific, "0"));
    let exponent: i32 = exponent.parse().unwrap_or(0);
    format!("0.{}E{}", mantissa.replace('.', ""), exponent + 1)
}

fn checks() -> Vec<Check> {
    let mut all = vec![
        of_one("002-A1", "pB23", b23_pressure, "623.15", "0.165291643E2"),
        of_one("002-A1", "TB23", b23_temperature, "16.5291643", "0.623150000E3"),
    ];
    all.extend(property_table("002-A3", Region::One, &A3));
    all.extend(property_table("002-A6", Region::Two, &A6));
    all.extend(dense_table("002-A10", &A10));
    all.extend(A12.map(|(t, ps)| of_one("002-A12", "ps", ps_or_nan, t, ps)));
    all.extend(property_table("R7-97-42", Region::Five, &R7_42));
    all.extend(A17.map(|row| of_two("002-A17", "T1", t1_ph, row)));
    all.extend(A19.map(|row| of_two("002-A19", "T1", t1_ps, row)));
    all.push(of_one("002-A20", "p2bc", b2bc_pressure, "3516.004323", "0.100000000E3"));
    all.extend(A24.map(|(subregion, row)| of_subregion("002-A24", 'T', t2_ph, subregion, row)));
    all.extend(A28.map(|(subregion, row)| of_subregion("002-A28", 'T', t2_ps, subregion, row)));
    all.extend(A29.map(|(p, ts)| of_one("002-A29", "Ts", saturation_temperature, p, ts)));
    all.extend(HS3.map(|row| of_two("003-3", "p1", p1_hs, row)));
    all.push(of_one("003-5", "h2ab", b2ab_enthalpy, "7", "0.3376437884E4"));
    all.extend(HS9.map(|(subregion, row)| of_subregion("003-9", 'p', p2_hs, subregion, row)));
    all
}

/// ps(T) of a check point; without an answer a NaN, which agrees with nothing printed.
fn ps_or_nan(t: f64) -> f64 {
    match saturation_pressure(t) {
        SaturationPressure::To623(ps) | SaturationPressure::To647(ps) => ps,
        SaturationPressure::NoAnswer => f64::NAN,
    }
}

/// A row of two arguments and the value printed for them.
type Row = (&'static str, &'static str, &'static str);

fn number(text: &str) -> f64 {
    text.parse().expect("a printed decimal")
}

fn of_one(
    table: &'static str,
    name: &str,
    value: fn(f64) -> f64,
    x: &str,
    printed: &'static str,
) -> Check {
    let computed = value(number(x));
    Check { table, call: format!("{name}({x})"), printed, computed }
}

fn of_two(table: &'static str, name: &str, value: fn(f64, f64) -> f64, row: Row) -> Check {
    let (x, y, printed) = row;
    let computed = value(number(x), number(y));
    Check { table, call: format!("{name}({x},{y})"), printed, computed }
}

fn of_subregion(
    table: &'static str,
    letter: char,
    value: fn(Subregion, f64, f64) -> f64,
    subregion: Subregion,
    row: Row,
) -> Check {
    let (x, y, printed) = row;
    let name = match subregion {
        A => "2a",
        B => "2b",
        C => "2c",
    };
    let computed = value(subregion, number(x), number(y));
    Check { table, call: format!("{letter}{name}({x},{y})"), printed, computed }
}

/// A point, (p,T) or in region 3 (ρ,T), and the six values printed for it.
type Column = (&'static str, &'static str, [&'static str; 6]);

/// The quantities of a state in a table's order; which of them is the first, the table says.
fn six(first: (&'static str, f64), state: Properties) -> [(&'static str, f64); 6] {
    [first, ("h", state.h), ("u", state.u), ("s", state.s), ("cp", state.cp), ("w", state.w)]
}

fn property_table(table: &'static str, region: Region, columns: &[Column]) -> Vec<Check> {
    let values = |p, t| {
        let state = Point::new(region, p, t).properties();
        six(("v", state.v), state)
    };
    columns.iter().flat_map(|column| of_column(table, values, column)).collect()
}

fn dense_table(table: &'static str, columns: &[Column]) -> Vec<Check> {
    let values = |density, t| {
        let point = DensePoint::new(density, t);
        six(("p", point.pressure()), point.properties())
    };
    columns.iter().flat_map(|column| of_column(table, values, column)).collect()
}

fn of_column(
    table: &'static str,
    values: impl Fn(f64, f64) -> [(&'static str, f64); 6],
    &(x, t, printed): &Column,
) -> Vec<Check> {
    let values = values(number(x), number(t)).into_iter().zip(printed);
    values
        .map(|((name, computed), printed)| Check {
            table,
            call: format!("{name}({x},{t})"),
            printed,
            computed,
        })
        .collect()
}

#[rustfmt::skip]
const A3: [Column; 3] = [
    ("3", "300", ["0.100215168E-2", "0.115331273E3", "0.112324818E3", "0.392294792E0", "0.417301218E1", "0.150773921E4"]),
    ("80", "300", ["0.971180894E-3", "0.184142828E3", "0.106448356E3", "0.368563852E0", "0.401008987E1", "0.163469054E4"]),
    ("3", "500", ["0.120241800E-2", "0.975542239E3", "0.971934985E3", "0.258041912E1", "0.465580682E1", "0.124071337E4"]),
];

#[rustfmt::skip]
const A6: [Column; 3] = [
    ("0.0035", "300", ["0.394913866E2", "0.254991145E4", "0.241169160E4", "0.852238967E1", "0.191300162E1", "0.427920172E3"]),
    ("0.0035", "700", ["0.923015898E2", "0.333568375E4", "0.301262819E4", "0.101749996E2", "0.208141274E1", "0.644289068E3"]),
    ("30", "700", ["0.542946619E-2", "0.263149474E4", "0.246861076E4", "0.517540298E1", "0.103505092E2", "0.480386523E3"]),
];

#[rustfmt::skip]
const A10: [Column; 3] = [
    ("500", "650", ["0.255837018E2", "0.186343019E4", "0.181226279E4", "0.405427273E1", "0.138935717E2", "0.502005554E3"]),
    ("200", "650", ["0.222930643E2", "0.237512401E4", "0.226365868E4", "0.485438792E1", "0.446579342E2", "0.383444594E3"]),
    ("500", "750", ["0.783095639E2", "0.225868845E4", "0.210206932E4", "0.446971906E1", "0.634165359E1", "0.760696041E3"]),
];

#[rustfmt::skip]
const R7_42: [Column; 3] = [
    ("0.5", "1500", ["0.138455090E1", "0.521976855E4", "0.452749310E4", "0.965408875E1", "0.261609445E1", "0.917068690E3"]),
    ("30", "1500", ["0.230761299E-1", "0.516723514E4", "0.447495124E4", "0.772970133E1", "0.272724317E1", "0.928548002E3"]),
    ("30", "2000", ["0.311385219E-1", "0.657122604E4", "0.563707038E4", "0.853640523E1", "0.288569882E1", "0.106736948E4"]),
];

const A12: [(&str, &str); 3] =
    [("300", "0.353658941E-2"), ("500", "0.263889776E1"), ("600", "0.123443146E2")];

const A17: [Row; 3] = [
    ("3", "500", "0.391798509E3"),
    ("80", "500", "0.378108626E3"),
    ("80", "1500", "0.611041229E3"),
];

const A19: [Row; 3] =
    [("3", "0.5", "0.307842258E3"), ("80", "0.5", "0.309979785E3"), ("80", "3", "0.565899909E3")];

const A24: [(Subregion, Row); 9] = [
    (A, ("0.001", "3000", "0.534433241E3")),
    (A, ("3", "3000", "0.575373370E3")),
    (A, ("3", "4000", "0.101077577E4")),
    (B, ("5", "3500", "0.801299102E3")),
    (B, ("5", "4000", "0.101531583E4")),
    (B, ("25", "3500", "0.875279054E3")),
    (C, ("40", "2700", "0.743056411E3")),
    (C, ("60", "2700", "0.791137067E3")),
    (C, ("60", "3200", "0.882756860E3")),
];

const A28: [(Subregion, Row); 9] = [
    (A, ("0.1", "7.5", "0.399517097E3")),
    (A, ("0.1", "8", "0.514127081E3")),
    (A, ("2.5", "8", "0.103984917E4")),
    (B, ("8", "6", "0.600484040E3")),
    (B, ("8", "7.5", "0.106495556E4")),
    (B, ("90", "6", "0.103801126E4")),
    (C, ("20", "5.75", "0.697992849E3")),
    (C, ("80", "5.25", "0.854011484E3")),
    (C, ("80", "5.75", "0.949017998E3")),
];

const A29: [(&str, &str); 3] =
    [("0.1", "0.372755919E3"), ("1", "0.453035632E3"), ("10", "0.584149488E3")];

const HS3: [Row; 3] = [
    ("0.001", "0", "0.9800980612E-3"),
    ("90", "0", "0.9192954727E2"),
    ("1500", "3.4", "0.5868294423E2"),
];

const HS9: [(Subregion, Row); 9] = [
    (A, ("2800", "6.5", "0.1371012767E1")),
    (A, ("2800", "9.5", "0.1879743844E-2")),
    (A, ("4100", "9.5", "0.1024788997E0")),
    (B, ("2800", "6", "0.4793911442E1")),
    (B, ("3600", "6", "0.8395519209E2")),
    (B, ("3600", "7", "0.7527161441E1")),
    (C, ("2800", "5.1", "0.9439202060E2")),
    (C, ("2800", "5.8", "0.8414574124E1")),
    (C, ("3400", "5.8", "0.8376903879E2")),
];

#[cfg(test)]
mod tests {
    use super::*;

    fn agree(table: &str, count: usize) {
        let checks: Vec<Check> =
            checks().into_iter().filter(|check| check.table == table).collect();
        assert_eq!(checks.len(), count, "{table}");
        for check in checks {
            let computed = rounded(check.computed, digits(check.printed));
            assert_eq!(computed, check.printed, "{table} {}", check.call);
        }
    }

    #[test]
    fn basic_equations_meet_a3_a6_a10_and_r7_97() {
        agree("002-A3", 18);
        agree("002-A6", 18);
        agree("002-A10", 18);
        agree("R7-97-42", 18);
    }

    #[test]
    fn saturation_meets_a12_a29() {
        agree("002-A12", 3);
        agree("002-A29", 3);
    }

    #[test]
    fn boundaries_meet_a1_a20_and_h2ab() {
        agree("002-A1", 2);
        agree("002-A20", 1);
        agree("003-5", 1);
    }

    #[test]
    fn backward_equations_meet_a17_a19_a24_a28() {
        agree("002-A17", 3);
        agree("002-A19", 3);
        agree("002-A24", 9);
        agree("002-A28", 9);
    }

    #[test]
    fn pressures_from_h_and_s_meet_003() {
        agree("003-3", 3);
        agree("003-9", 9);
    }

    #[test]
    fn numbers_are_written_as_printed() {
        assert_eq!(rounded(0.00100215168, 9), "0.100215168E-2");
        assert_eq!(rounded(0.392294792, 9), "0.392294792E0");
        assert_eq!(rounded(999.9999999, 9), "0.100000000E4");
        assert_eq!(digits("0.9800980612E-3"), 10);
    }

    #[test]
    fn the_listing_ends_with_the_count() {
        let text = listing();
        assert!(text.starts_with("002-A1 pB23(623.15) 0.165291643E2 0.165291643E2\n"));
        assert!(text.ends_with("\n118 of 118 check values agree\n"));
    }
}
