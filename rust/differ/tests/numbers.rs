//! The paper's numbers are written down three times: by the wrapper, by the model and for the tools.

use exhash::{
    COMPARE_SIZE, FIELD_START, KEY_START, REPLY_SIZE, SLOTS_MOST, USED_MOST, WAITING_MOST,
};
use generate::layout as tools;
use model::layout as model;

#[test]
fn sizes_and_limits_agree() {
    for (wrapper, model, tools) in [
        (SLOTS_MOST, model::MOST_SLOTS, tools::MOST_SLOTS),
        (WAITING_MOST, model::MOST_WAITING, tools::MOST_WAITING),
        (USED_MOST, model::MOST_USED, tools::MOST_USED),
        (
            REPLY_SIZE,
            model::LEAST_REPLY_BUFFER,
            tools::LEAST_REPLY_BUFFER,
        ),
        (
            COMPARE_SIZE,
            model::LEAST_LISTING_BUFFER,
            tools::LEAST_LISTING_BUFFER,
        ),
        (KEY_START, model::KEY.start, tools::KEY.start),
        (FIELD_START, model::FIELD.start, tools::FIELD.start),
    ] {
        assert_eq!((wrapper, model), (tools, tools));
    }
    for slots in 0..=SLOTS_MOST {
        let sizes = [model::store_size(slots), tools::store_size(slots)];
        assert_eq!(sizes, [exhash::store_size(slots); 2]);
    }
    assert_eq!(model::TIME_LIMIT, tools::TIME_LIMIT);
    assert_eq!(model::LARGEST_VERSION, tools::LARGEST_VERSION);
}

#[test]
fn places_agree() {
    for (model, tools) in [
        (model::CLOCK, tools::CLOCK),
        (model::RESERVED, tools::RESERVED),
        (model::VERSION, tools::VERSION),
        (model::EXPIRY, tools::EXPIRY),
        (model::KEY, tools::KEY),
        (model::FIELD, tools::FIELD),
        (model::VALUE, tools::VALUE),
        (0..model::HEAD, 0..tools::HEAD),
        (0..model::LONGEST_RECORD, 0..tools::LONGEST_RECORD),
        (0..model::LONGEST_COMMAND, 0..tools::LONGEST_COMMAND),
        (0..model::MOST_WORDS, 0..tools::MOST_WORDS),
    ] {
        assert_eq!(model, tools);
    }
}
