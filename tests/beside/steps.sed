# Turns bentley_ottmann.rs into steps.rs: the same sweep, which says after every step what its state is.
/^    for pair in status.adjacent_pairs() {$/a\
      super::record::examined(pair);
/^    for (a, b) in adjacent_pairs {$/a\
      super::record::examined(pair_key(a, b));
/^    for (a, b) in adjacent_pairs {$/,/^    }$/s/^    }$/&\
    super::record::step(status.current_point(), \&status.active, processor.scheduled, processor.results);/
