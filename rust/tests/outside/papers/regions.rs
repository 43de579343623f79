//! "Collect WebVTT region settings" (000 section 6.2).

use super::model::{Part, Region};
use super::numbers::{lines_count, percentage, Stored};
use super::settings::{name_and_value, split_at_comma, split_on_spaces};

/// The region that this part of the text gives. `over` is set where a lines count above the limit would have been stored.
pub fn collect_region_settings(text: &[u8], part: Part, over: &mut bool) -> Region {
    let mut region = Region::OPENING;
    let input = part.of(text);
    for (from, to) in split_on_spaces(input) {
        let Some((name, value)) = name_and_value(&input[from..to]) else {
            continue;
        };
        match name {
            b"id" => {
                let end = part.from + to;
                region.identifier = Part { from: end - value.len(), to: end };
            }
            b"width" => {
                if let Some(number) = percentage(value) {
                    region.width = number;
                }
            }
            b"lines" => match lines_count(value) {
                Some(Stored::Within(number)) => region.lines = number,
                Some(Stored::Above) => *over = true,
                None => {}
            },
            b"regionanchor" => {
                if let Some(pair) = anchor(value) {
                    region.anchor = pair;
                }
            }
            b"viewportanchor" => {
                if let Some(pair) = anchor(value) {
                    region.viewport_anchor = pair;
                }
            }
            b"scroll" if value == b"up" => region.scroll_up = true,
            _ => {}
        }
    }
    region
}

/// Two percentages, before and after the first comma.
fn anchor(value: &[u8]) -> Option<(u64, u64)> {
    let (x, y) = split_at_comma(value);
    Some((percentage(x)?, percentage(y?)?))
}
