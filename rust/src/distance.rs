//! The numbers that a grid may hold: floats, and whole numbers of 16 or 8 bits, each meaning the float of the same
//! value. The library has functions for each kind, and here is which.

/// A kind of distance: f32, i16 or i8. A whole number means the float of the same value: a call on a grid of them answers and
/// writes what it does on the grid of those floats, bit for bit, but no such grid is made, and [`Refusal::Distance`] never
/// comes.
///
/// The library takes these three and no others, so the trait cannot be implemented elsewhere.
///
/// [`Refusal::Distance`]: crate::Refusal::Distance
pub trait Distance: functions::Functions {}

impl Distance for f32 {}
impl Distance for i16 {}
impl Distance for i8 {}

/// A whole number: i16 or i8. What fixtures are cut out of is no whole number any more, so that it is written as floats.
pub trait WholeDistance: Distance + functions::OfWholes {}

impl WholeDistance for i16 {}
impl WholeDistance for i8 {}

/// Public for the trait above and not reachable from outside: so it is sealed.
pub(crate) mod functions {
    use crate::raw::{
        self, Answer, Close, CloseLayer, CutLayerInto, Deepest, IsEnclosed, IsEnclosedLayer,
        Levels, LevelsLayer, SurfaceNets, Tally, TallyLayer,
    };

    /// The library's functions over a kind of distance.
    pub trait Functions: Sized {
        const SURFACE_NETS: SurfaceNets<Self>;
        const IS_ENCLOSED: IsEnclosed<Self>;
        const IS_ENCLOSED_LAYER: IsEnclosedLayer<Self>;
        const ANSWER: Answer<Self>;
        const CLOSE: Close<Self>;
        const CLOSE_LAYER: CloseLayer<Self>;
        const DEEPEST: Deepest<Self>;
        const LEVELS: Levels<Self>;
        const LEVELS_LAYER: LevelsLayer<Self>;
        const TALLY: Tally<Self>;
        const TALLY_LAYER: TallyLayer<Self>;
    }

    /// Those over a kind of whole number alone.
    pub trait OfWholes: Sized {
        const CUT_LAYER: CutLayerInto<Self>;
    }

    impl OfWholes for i16 {
        const CUT_LAYER: CutLayerInto<Self> = raw::bed_cut_fixtures_layer_i16;
    }

    impl OfWholes for i8 {
        const CUT_LAYER: CutLayerInto<Self> = raw::bed_cut_fixtures_layer_i8;
    }

    impl Functions for f32 {
        const SURFACE_NETS: SurfaceNets<Self> = raw::bed_surface_nets;
        const IS_ENCLOSED: IsEnclosed<Self> = raw::bed_is_enclosed;
        const IS_ENCLOSED_LAYER: IsEnclosedLayer<Self> = raw::bed_is_enclosed_layer;
        const ANSWER: Answer<Self> = raw::bed_answer;
        const CLOSE: Close<Self> = raw::bed_close;
        const CLOSE_LAYER: CloseLayer<Self> = raw::bed_close_layer;
        const DEEPEST: Deepest<Self> = raw::bed_deepest;
        const LEVELS: Levels<Self> = raw::bed_levels;
        const LEVELS_LAYER: LevelsLayer<Self> = raw::bed_levels_layer;
        const TALLY: Tally<Self> = raw::bed_tally;
        const TALLY_LAYER: TallyLayer<Self> = raw::bed_tally_layer;
    }

    impl Functions for i16 {
        const SURFACE_NETS: SurfaceNets<Self> = raw::bed_surface_nets_i16;
        const IS_ENCLOSED: IsEnclosed<Self> = raw::bed_is_enclosed_i16;
        const IS_ENCLOSED_LAYER: IsEnclosedLayer<Self> = raw::bed_is_enclosed_layer_i16;
        const ANSWER: Answer<Self> = raw::bed_answer_i16;
        const CLOSE: Close<Self> = raw::bed_close_i16;
        const CLOSE_LAYER: CloseLayer<Self> = raw::bed_close_layer_i16;
        const DEEPEST: Deepest<Self> = raw::bed_deepest_i16;
        const LEVELS: Levels<Self> = raw::bed_levels_i16;
        const LEVELS_LAYER: LevelsLayer<Self> = raw::bed_levels_layer_i16;
        const TALLY: Tally<Self> = raw::bed_tally_i16;
        const TALLY_LAYER: TallyLayer<Self> = raw::bed_tally_layer_i16;
    }

    impl Functions for i8 {
        const SURFACE_NETS: SurfaceNets<Self> = raw::bed_surface_nets_i8;
        const IS_ENCLOSED: IsEnclosed<Self> = raw::bed_is_enclosed_i8;
        const IS_ENCLOSED_LAYER: IsEnclosedLayer<Self> = raw::bed_is_enclosed_layer_i8;
        const ANSWER: Answer<Self> = raw::bed_answer_i8;
        const CLOSE: Close<Self> = raw::bed_close_i8;
        const CLOSE_LAYER: CloseLayer<Self> = raw::bed_close_layer_i8;
        const DEEPEST: Deepest<Self> = raw::bed_deepest_i8;
        const LEVELS: Levels<Self> = raw::bed_levels_i8;
        const LEVELS_LAYER: LevelsLayer<Self> = raw::bed_levels_layer_i8;
        const TALLY: Tally<Self> = raw::bed_tally_i8;
        const TALLY_LAYER: TallyLayer<Self> = raw::bed_tally_layer_i8;
    }
}
