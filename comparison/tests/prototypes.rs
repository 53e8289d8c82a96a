//! The build script's reader of the header.

#[path = "../prototypes.rs"]
mod prototypes;

/// The prototypes as Rust would declare them, or what is not understood.
fn read(header: &str) -> Result<Vec<String>, String> {
    let prototypes = prototypes::read(header)?;
    Ok(prototypes.iter().map(|call| format!("{}({})", call.name, call.parameters)).collect())
}

#[test]
fn every_type_on_one_line_or_several() {
    let header = "uint32_t gauge_open(const uint8_t *configuration, size_t configuration_length);
uint32_t gauge_estimate(uint8_t *saved, size_t saved_length, uint8_t a, uint16_t b, uint32_t c,
                        int32_t d, uint16_t *estimate,
                        int32_t *distance);";
    let open = "gauge_open(configuration: *const u8, configuration_length: usize)";
    let estimate =
        "gauge_estimate(saved: *mut u8, saved_length: usize, a: u8, b: u16, c: u32, d: i32, estimate: &mut u16, distance: &mut i32)";
    assert_eq!(read(header), Ok(vec![open.to_string(), estimate.to_string()]));
}

#[test]
fn a_lent_number_has_no_length_after_it() {
    let rows = [
        ("uint8_t *reply, size_t reply_length, uint8_t *command", "reply: *mut u8, reply_length: usize, command: &mut u8"),
        ("uint8_t *command, uint8_t *reply, size_t reply_length", "command: &mut u8, reply: *mut u8, reply_length: usize"),
        ("uint8_t *command, uint32_t command_length", "command: &mut u8, command_length: u32"),
    ];
    for (in_c, in_rust) in rows {
        assert_eq!(read(&format!("uint32_t gauge_a({in_c});")), Ok(vec![format!("gauge_a({in_rust})")]));
    }
}

#[test]
fn what_is_no_prototype_is_left_out() {
    let header = "/* uint32_t gauge_comment(size_t a); */
#define GAUGE_FORM 1 /* over
two lines */
#ifdef __cplusplus
extern \"C\" {
#endif
enum gauge_flag { GAUGE_FLAG_CHGS = 0x80 };
uint32_t gauge_rest(uint8_t *saved, size_t saved_length);
static inline unsigned gauge_pair(const uint8_t *low)
{
    if (low == 0) { return 0; }
    return low[0];
}
uint32_t gauge_last(uint32_t a);
#ifdef __cplusplus
}
#endif
";
    let expected = ["gauge_rest(saved: *mut u8, saved_length: usize)", "gauge_last(a: u32)"];
    assert_eq!(read(header), Ok(expected.map(String::from).to_vec()));
}

#[test]
fn a_wrong_header_is_refused() {
    let rows = [
        ("", "no prototype"),
        ("#define GAUGE_FORM 1\n", "no prototype"),
        ("uint32_t gauge_a(float x);", "parameter `float x` of gauge_a is not understood"),
        ("uint32_t gauge_a(uint8_t n, uint8_t **x);", "parameter `uint8_t **x` of gauge_a is not understood"),
        ("uint32_t gauge_a(size_t n);", "parameter `size_t n` of gauge_a is not understood"),
        ("uint32_t gauge_a(const uint8_t *x);", "parameter `const uint8_t *x` of gauge_a is not understood"),
        ("uint32_t gauge_a(uint8_t *x, size_t y_length);", "parameter `size_t y_length` of gauge_a is not understood"),
        ("uint32_t gauge_a(size_t x_length, uint8_t *x);", "parameter `size_t x_length` of gauge_a is not understood"),
        ("uint32_t gauge_a(uint16_t *x, size_t x_length);", "parameter `size_t x_length` of gauge_a is not understood"),
        ("uint32_t gauge_a(const uint16_t *x);", "parameter `const uint16_t *x` of gauge_a is not understood"),
        ("uint32_t gauge_a(uint8_t x[41]);", "parameter `uint8_t x[41]` of gauge_a is not understood"),
        ("uint32_t gauge_a(uint8_t *);", "parameter `uint8_t *` of gauge_a is not understood"),
        ("uint32_t gauge_a(size_t);", "parameter `size_t` of gauge_a is not understood"),
        ("uint32_t gauge_a(void);", "parameter `void` of gauge_a is not understood"),
        ("uint32_t gauge_a();", "parameter `` of gauge_a is not understood"),
        ("int32_t gauge_a(uint8_t n);", "`int32_t gauge_a(uint8_t n)` is not understood"),
        ("uint32_t other(uint8_t n);", "`uint32_t other(uint8_t n)` is not understood"),
        ("extern uint32_t gauge_a;", "`extern uint32_t gauge_a` is not understood"),
        (
            "uint32_t gauge_a(uint8_t n)\nstatic inline int f(void) { }",
            "`uint32_t gauge_a(uint8_t n) static inline int f(void)` is not understood",
        ),
        ("uint32_t gauge_a(uint8_t n)", "the last declaration does not end"),
        ("uint32_t gauge_a(uint8_t n); enum b {", "the last declaration does not end"),
        ("uint32_t gauge_a(uint8_t n); }", "a brace is closed that was not opened"),
        ("uint32_t gauge_a(uint8_t n); /* b", "a comment does not end"),
    ];
    for (header, wrong) in rows {
        assert_eq!(read(header), Err(wrong.to_string()), "{header}");
    }
}

#[test]
fn the_header_is_read() {
    let calls = read(include_str!("../../include/gauge.h")).unwrap();
    assert_eq!(calls[0], "gauge_open(configuration: *const u8, configuration_length: usize, saved: *mut u8, saved_length: usize)");
    let convert = "gauge_convert(old: *const u8, old_length: usize, saved: *mut u8, saved_length: usize)";
    let preview =
        "gauge_preview(saved: *const u8, saved_length: usize, key: u8, reply: *mut u8, reply_length: usize, command: &mut u8)";
    let estimate = "gauge_estimate(saved: *const u8, saved_length: usize, voltage: i32, estimate: &mut u16, distance: &mut i32)";
    assert!([convert, preview, estimate].iter().all(|expected| calls.iter().any(|call| call == expected)));
    assert!(calls.iter().any(|call| call.starts_with("gauge_read(")));
    assert!(!calls.iter().any(|call| call.starts_with("gauge_pair(") || call.starts_with("gauge_form_length(")));
}
