//! Colours and lines. The colours are Okabe and Ito's, which the colour-blind tell apart; nothing is told by colour alone.

/// The style sheet of a picture.
pub const STYLE: &str = "\
text { font-family: 'DejaVu Sans', Verdana, Arial, sans-serif; font-size: 12px; fill: #1a1a1a; }
.paper { fill: #ffffff; }
.name { font-size: 15px; font-weight: bold; }
.said { fill: #444444; }
.refused { font-weight: bold; fill: #9c1c00; }
.place { fill: #fafafa; stroke: #d0d0d0; }
.grid { fill: none; stroke: #e6e6e6; }
.tick { font-size: 10px; fill: #777777; text-anchor: middle; }
.tick-y { font-size: 10px; fill: #777777; text-anchor: end; }
.loop { fill: #009e73; fill-opacity: 0.22; stroke: none; fill-rule: evenodd; }
.outline { fill: none; stroke-width: 1.5; }
.one { stroke: #0072b2; }
.two { stroke: #d55e00; }
.before { fill: none; stroke: #8a8a8a; stroke-width: 1.5; stroke-dasharray: 2 4; }
.slice { fill: none; stroke-width: 4.5; stroke-linejoin: round; stroke-opacity: 0.85; }
.inverted { stroke-dasharray: 12 5; }
.stale { stroke: #1a1a1a; stroke-width: 3; stroke-dasharray: 3 4; }
.overlap-core { fill: none; stroke: #ffffff; stroke-width: 1.6; }
.arrow { stroke: #ffffff; stroke-width: 1; }
.arrow.one, .vertex.one, .number-one { fill: #0072b2; }
.arrow.two, .vertex.two, .number-two { fill: #d55e00; }
.arrow.stale { fill: #1a1a1a; stroke-dasharray: none; stroke-width: 1; stroke: #ffffff; }
.vertex { stroke: #ffffff; stroke-width: 1; }
.moved { fill: #f0e442; stroke: #1a1a1a; stroke-width: 1.2; }
.join { fill: #ffffff; stroke: #1a1a1a; stroke-width: 1.8; }
.join-gap { fill: #1a1a1a; stroke: none; }
.box { fill: none; stroke: #1a1a1a; stroke-width: 1; stroke-dasharray: 4 2; }
.end { fill: none; stroke: #1a1a1a; stroke-width: 2.6; }
.end-back { fill: none; stroke: #ffffff; stroke-width: 6; }
.number { font-size: 11px; text-anchor: middle; stroke: #ffffff; stroke-width: 3; paint-order: stroke; stroke-linejoin: round; }
.label { font-size: 11px; font-weight: bold; text-anchor: middle; stroke: #ffffff; stroke-width: 3; paint-order: stroke; stroke-linejoin: round; }
";
