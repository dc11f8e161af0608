//! What each rule asks of the library.

use library::have::*;

/// The first function that a rule needs and the library does not have; none if it can be asked.
pub fn lacks(rule: &str) -> Option<&'static str> {
    let layout = ("harness_layout", HARNESS_LAYOUT);
    let power_on = ("harness_power_on", HARNESS_POWER_ON);
    let snapshot = ("harness_snapshot", HARNESS_SNAPSHOT);
    let needs = match rule {
        "check" => vec![("harness_check", HARNESS_CHECK)],
        "size_ok" => vec![("harness_size", HARNESS_SIZE)],
        "size_mask" => vec![("harness_size_mask", HARNESS_SIZE_MASK)],
        "shown" => vec![("harness_shown", HARNESS_SHOWN)],
        "bar_write" => vec![("harness_bar_asks", HARNESS_BAR_ASKS)],
        "body_ok" => vec![("harness_body", HARNESS_BODY)],
        "first_bad_effect" => vec![("harness_effect", HARNESS_EFFECT)],
        "layout" => vec![layout],
        "effect_for" => vec![layout, power_on, ("harness_touch", HARNESS_TOUCH), snapshot],
        "modes" => vec![layout, ("harness_mode", HARNESS_MODE)],
        "view" => vec![layout, ("harness_view", HARNESS_VIEW)],
        "place" => vec![("harness_place", HARNESS_PLACE)],
        "first_bad_byte" => vec![layout, ("harness_config_bytes", HARNESS_CONFIG_BYTES)],
        "power_on" => vec![layout, power_on],
        "function" => vec![
            layout,
            power_on,
            ("harness_start", HARNESS_START),
            ("harness_read", HARNESS_READ),
            ("harness_write", HARNESS_WRITE),
            ("harness_finish", HARNESS_FINISH),
            ("harness_reset", HARNESS_RESET),
        ],
        // The crate voussglen has all that these ask.
        _ => vec![],
    };
    needs.into_iter().find(|(_, there)| !there).map(|(name, _)| name)
}
