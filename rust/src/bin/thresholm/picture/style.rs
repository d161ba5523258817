//! The colours and letters of the picture, in light and in dark.

/// The first line's colour and the second's differ for every kind of sight, on both grounds.
pub const STYLE: &str = "\
svg{max-width:100%;height:auto;background:#fff}\
text{font-family:system-ui,sans-serif;font-size:13px;fill:#1f2328}\
.title{font-size:20px;font-weight:600}\
.answer{font-size:15px}\
.note{font-size:12px;fill:#57606a}\
.cue{font-weight:600}\
.end{text-anchor:end}\
.mid{text-anchor:middle}\
.ground{fill:#fff}\
.panel{fill:none;stroke:#8c959f}\
.grid{fill:none;stroke:#e4e7eb}\
.zero{stroke:#b0b8c0}\
.line{fill:none;stroke-linejoin:round}\
.open{stroke-dasharray:7 6}\
.hatch{fill:none;stroke:#8c959f;stroke-opacity:.45}\
.word{fill:#57606a;font-style:italic}\
.word,.label{paint-order:stroke;stroke:#fff;stroke-width:4px;stroke-linejoin:round}\
.mark{stroke:#a3195b;stroke-width:1.5}\
.label{fill:#a3195b}\
.band0,.band1{fill-opacity:.22}\
.dot0,.far0,.dot1,.far1,.big0{fill:none;stroke-linecap:round}\
.big0{stroke-width:8px}\
.big1{fill:#fff;stroke-width:1.5}\
.line0,.dot0,.far0,.big0{stroke:#0072b2}\
.band0{fill:#0072b2}\
.line1,.dot1,.far1,.big1{stroke:#c24e00}\
.band1{fill:#c24e00}\
.hit{stroke:#57606a;stroke-opacity:0}\
g:hover>.hit{stroke-opacity:.16}\
@media (prefers-color-scheme:dark){\
svg{background:#14171c}\
text{fill:#e6e9ed}\
.note,.word{fill:#a9b2bc}\
.ground{fill:#14171c}\
.panel{stroke:#6e7781}\
.grid{stroke:#2a3038}\
.zero{stroke:#515a64}\
.hatch{stroke:#8c959f}\
.word,.label{stroke:#14171c}\
.mark{stroke:#ff8fc0}\
.label{fill:#ff8fc0}\
.line0,.dot0,.far0,.big0{stroke:#56b4e9}\
.band0{fill:#56b4e9}\
.line1,.dot1,.far1,.big1{stroke:#f0a030}\
.band1{fill:#f0a030}\
.big1{fill:#14171c}\
.hit{stroke:#e6e9ed}\
}";
