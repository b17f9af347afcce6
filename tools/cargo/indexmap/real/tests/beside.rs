//! Maps and sets beside those of the crate indexmap, over the same calls.

use indexmap::{IndexMap, IndexSet};
use rshim::alloc::{AllocError, Global};
use std::iter;

/// Numbers below 256, the same in each run.
fn numbers() -> impl Iterator<Item = u32> {
    let mut state = 1_u64;
    iter::repeat_with(move || {
        state = state.wrapping_mul(6_364_136_223_846_793_005).wrapping_add(1_442_695_040_888_963_407);
        (state >> 56) as u32
    })
}

#[test]
fn a_map_does_as_that_of_indexmap() -> Result<(), AllocError> {
    let (mut ours, mut theirs) = (IndexMap::new(Global), real::IndexMap::new());
    for (value, key) in numbers().enumerate().take(2000) {
        let name = key.to_string();
        assert_eq!(ours.insert_full(rshim::String::from(name.clone()), value)?, theirs.insert_full(name, value));
        let (asked, place) = ((key ^ 21).to_string(), key as usize);
        let found = ours.get_full(asked.as_str()).map(|(place, key, value)| (place, key.as_str(), value));
        assert_eq!(found, theirs.get_full(asked.as_str()).map(|(place, key, value)| (place, key.as_str(), value)));
        assert_eq!(ours.get_index_of(asked.as_str()), theirs.get_index_of(asked.as_str()));
        assert_eq!(ours.contains_key(asked.as_str()), theirs.contains_key(asked.as_str()));
        assert_eq!(ours.get_index(place).map(|(_, value)| value), theirs.get_index(place).map(|(_, value)| value));
        assert_eq!((ours.len(), ours.is_empty()), (theirs.len(), theirs.is_empty()));
    }
    assert!(ours.keys().map(|key| key.as_str()).eq(theirs.keys().map(String::as_str)));
    assert!(ours.into_iter().map(|(_, value)| value).eq(theirs.into_values()));
    Ok(())
}

#[test]
fn a_set_does_as_that_of_indexmap() -> Result<(), AllocError> {
    let (mut ours, mut theirs) = (IndexSet::new(Global), real::IndexSet::new());
    for value in numbers().take(2000) {
        assert_eq!(ours.insert_full(value)?, theirs.insert_full(value));
        let asked = value ^ 21;
        assert_eq!(ours.contains(&asked), theirs.contains(&asked));
        assert_eq!(ours.get_index_of(&asked), theirs.get_index_of(&asked));
        assert_eq!(ours.get_index(asked as usize), theirs.get_index(asked as usize));
    }
    assert!(ours.into_iter().eq(theirs));
    Ok(())
}
