# The lines of rustybuzz 0.18.0's examples/shape.rs that ask for what isn't done: variations, and points of an em, by which AAT's
# tracking goes.
/^    variations: Vec<rustybuzz::Variation>,$/d
/^        variations: args$/,/^            \.unwrap_or_default(),$/d
/^fn parse_variations/,/^}$/d
/^    if !args\.variations\.is_empty() {$/,/^    }$/d
/^    face\.set_points_per_em(args\.font_ptem);$/d
s/let mut face = rustybuzz/let face = rustybuzz/
