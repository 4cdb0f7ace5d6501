//! Two masks, and all the steps from where they meet to the loops.

use crate::straight::{are_straight_and_whole, is_whole};
use crate::{
    area_pass, candidates_along, cut_order, prune, split_cuts, stitch, straight_slices, Answered,
    Host, Intersections, Mode, Named, Outline, Overlaps, Refusal, Slices, Source, Stitched, Vertex,
};

/// Two masks, and where their outlines meet.
#[derive(Debug, Clone, Copy, PartialEq)]
pub struct Masks<'a> {
    /// The first outline.
    pub pline1: &'a Outline,
    /// The second outline.
    pub pline2: &'a Outline,
    /// Where they cross or touch.
    pub intersections: &'a Intersections,
    /// Where they run on each other.
    pub overlaps: &'a Overlaps,
    /// How near two points lie that count as one, and the area below which a loop is left out: an
    /// edition of a record of settings.
    pub setting: Named<'a>,
}

/// What two masks were made into.
#[derive(Debug, Clone, PartialEq)]
pub struct Combined {
    /// The slices that were stitched.
    pub slices: Slices,
    /// The loops and chains that they made.
    pub stitched: Stitched,
    /// The numbers of the loops that are not below the area limit.
    pub kept: Vec<usize>,
}

impl Combined {
    /// The loops that are not below the area limit. One that runs against the others bounds a
    /// hole.
    pub fn loops(&self) -> impl Iterator<Item = &[Vertex]> + '_ {
        self.kept
            .iter()
            .filter_map(move |&number| self.stitched.get_loop(number))
    }
}

impl Masks<'_> {
    /// Whether the outlines meet at all. Where they do not, there is nothing to cut: see
    /// [the crate's page](crate#masks-that-do-not-meet).
    pub fn any_intersects(&self) -> bool {
        !self.intersections.is_empty() || !self.overlaps.is_empty()
    }

    /// Whether both outlines, the intersections and the overlaps are straight and in whole
    /// microdegrees: every bulge 0, every coordinate whole and of magnitude at most 400,000,000. Then
    /// [`slices`](Masks::slices) and [`combine`](Masks::combine) go by one call,
    /// [`straight_slices`]; else they ask the host for splits and inside answers.
    pub fn is_straight_and_whole(&self) -> bool {
        self.pline1.is_straight_and_whole()
            && self.pline2.is_straight_and_whole()
            && self.intersections.numbers().iter().copied().all(is_whole)
            && are_straight_and_whole(self.overlaps)
    }

    /// The slices of both outlines that `mode` keeps, by the setting's tolerances.
    ///
    /// There are two ways, and [`is_straight_and_whole`](Masks::is_straight_and_whole) says which of
    /// them it goes:
    ///
    /// - Straight masks in whole microdegrees: one call, [`straight_slices`]. The host is asked only
    ///   whether the outlines run in opposing directions. Splits are the points themselves with bulge
    ///   +0, and inside answers are exact winding numbers, whatever the host would say.
    /// - All others: [`answered`](Masks::answered) for each outline, then [`prune`].
    ///
    /// Where a host splits with bulge +0 and answers by the winding number of [`WholeOutline`], both
    /// ways give the same slices, bit for bit. [`StraightHost`] does so but for a midpoint on an edge,
    /// for products that it rounds, far out, and for bulges of -0, which it keeps.
    ///
    /// [`WholeOutline`]: crate::WholeOutline
    /// [`StraightHost`]: crate::StraightHost
    pub fn slices<H: Host + ?Sized>(&self, mode: Mode, host: &mut H) -> Result<Slices, Refusal> {
        if self.is_straight_and_whole() {
            let t = self.setting.ask()?.tolerance;
            let opposing = host.opposing_directions(self.pline1, self.pline2);
            let (outlines, hits) = ([self.pline1, self.pline2], self.intersections);
            return straight_slices(mode, opposing, outlines, hits, self.overlaps, t);
        }
        let answered1 = self.answered(Source::Pline1, host)?;
        let answered2 = self.answered(Source::Pline2, host)?;
        self.pruned(mode, [&answered1, &answered2], host)
    }

    /// Cuts both outlines, learns what lies inside, prunes, stitches, and takes the area pass, all by
    /// one setting. The first call that is refused ends it. Overlaps of another edition of outline 2
    /// are refused with [`Refusal::Edition`].
    ///
    /// It goes by the one call for straight masks, or asks the host, as [`slices`](Masks::slices) does;
    /// [`is_straight_and_whole`](Masks::is_straight_and_whole) says which.
    pub fn combine<H: Host + ?Sized>(&self, mode: Mode, host: &mut H) -> Result<Combined, Refusal> {
        let slices = self.slices(mode, host)?;
        self.joined(mode, slices, host)
    }

    /// Cuts one outline, and asks the host of each candidate whether it lies inside the other
    /// outline. The answers hold for every mode.
    pub fn answered<H: Host + ?Sized>(
        &self,
        source: Source,
        host: &mut H,
    ) -> Result<Answered, Refusal> {
        let outline = self.outline(source);
        let (hits, laps) = (self.intersections, self.overlaps);
        let t = self.setting.ask()?.tolerance;
        let cuts = cut_order(outline, source, hits, laps, t)?;
        let splits = split_cuts(outline, &cuts, host)?;
        let candidates = candidates_along(outline, source, hits, laps, &cuts, &splits, t)?;

        let other = source.other();
        let inside = candidates
            .probes()
            .map(|probe| host.inside(other, self.outline(other), probe))
            .collect();
        Ok(Answered { candidates, inside })
    }

    /// Goes on from the answers of [`answered`](Masks::answered) for outline 1 and outline 2. Where
    /// one of the outlines has been changed since, its candidates are of another edition. Then it
    /// refuses with [`Refusal::Edition`], unless none of these candidates stays.
    pub fn combine_answered<H: Host + ?Sized>(
        &self,
        mode: Mode,
        answered: [&Answered; 2],
        host: &mut H,
    ) -> Result<Combined, Refusal> {
        let slices = self.pruned(mode, answered, host)?;
        self.joined(mode, slices, host)
    }

    /// What stays of the candidates.
    fn pruned<H: Host + ?Sized>(
        &self,
        mode: Mode,
        answered: [&Answered; 2],
        host: &mut H,
    ) -> Result<Slices, Refusal> {
        let opposing = host.opposing_directions(self.pline1, self.pline2);
        let vertex_counts = [self.pline1.vertex_count(), self.pline2.vertex_count()];
        prune(mode, opposing, vertex_counts, answered, self.overlaps)
    }

    /// The loops that the slices make, and which of them are kept.
    fn joined<H: Host + ?Sized>(
        &self,
        mode: Mode,
        slices: Slices,
        host: &mut H,
    ) -> Result<Combined, Refusal> {
        let stitched = stitch(
            self.pline1,
            self.pline2,
            &slices,
            mode.selector(),
            self.setting,
        )?;
        let kept = self.kept(&stitched, host)?;
        Ok(Combined {
            slices,
            stitched,
            kept,
        })
    }

    /// The loops that are not below the area limit. The library goes by their size, so that holes
    /// are measured as other loops are.
    fn kept<H: Host + ?Sized>(
        &self,
        stitched: &Stitched,
        host: &mut H,
    ) -> Result<Vec<usize>, Refusal> {
        let areas: Vec<f64> = stitched.loops().map(|lp| host.area(lp)).collect();
        area_pass(&areas, self.setting)
    }

    fn outline(&self, source: Source) -> &Outline {
        match source {
            Source::Pline1 => self.pline1,
            Source::Pline2 => self.pline2,
        }
    }
}

#[cfg(test)]
mod tests {
    use super::*;
    use crate::ffi::standin::{told, Call, Lent, Reply};
    use crate::ffi::{CountAnswer, PruneAnswer, SettingAnswer, StitchAnswer};
    use crate::{Intersection, Overlap, Point, Probe, Settings, Split, StraightHost};

    /// A host whose inside answers are told, and that writes down what was asked.
    struct Told {
        inside: Vec<bool>,
        asked: Vec<(Source, Probe)>,
        area: f64,
    }

    impl Host for Told {
        fn split(&mut self, from: Vertex, to: Vertex, at: Point) -> Split {
            StraightHost.split(from, to, at)
        }

        fn inside(&mut self, source: Source, outline: &Outline, probe: Probe) -> bool {
            let first = if source == Source::Pline1 { 0.0 } else { 2.0 };
            assert_eq!(outline.vertices()[0].x, first);
            self.asked.push((source, probe));
            self.inside.remove(0)
        }

        fn area(&mut self, _: &[Vertex]) -> f64 {
            self.area
        }
    }

    fn host(area: f64) -> Told {
        Told {
            inside: vec![true, false],
            asked: vec![],
            area,
        }
    }

    fn count(count: usize) -> CountAnswer {
        CountAnswer { refusal: 0, count }
    }

    /// The setting that is named.
    fn asked() -> Reply {
        Reply::of(SettingAnswer {
            refusal: 0,
            tolerance_x: 0.5,
            tolerance_y: 0.25,
            area_limit: 3.0,
        })
    }

    /// One cut on the segment.
    fn cuts(segment: usize) -> Reply {
        Reply::writing(count(1), vec![vec![segment, 0, 0]], vec![vec![4.0, 2.0]])
    }

    /// One candidate, with a probe that starts at this x, and of this edition.
    fn candidates(x: f64, edition: u32) -> Reply {
        Reply::writing(count(1), vec![vec![1, 2]], vec![vec![], vec![x]]).with_editions(&[edition])
    }

    fn pruned() -> Reply {
        let answer = PruneAnswer {
            slices: 1,
            ..PruneAnswer::default()
        };
        Reply::writing(answer, vec![vec![2, 0, 1, 2]], vec![]).with_editions(&[4])
    }

    /// One loop of three vertices.
    fn stitched() -> Reply {
        let answer = StitchAnswer {
            refusal: 0,
            rounds: 1,
            loops: 1,
            chains: 1,
        };
        Reply::writing(answer, vec![vec![3], vec![0], vec![1], vec![0]], vec![])
    }

    /// The loops that are kept.
    fn passed(kept: &[usize]) -> Reply {
        Reply::writing(count(kept.len()), vec![kept.to_vec()], vec![])
    }

    fn steps() -> Vec<Reply> {
        vec![
            asked(),
            cuts(1),
            candidates(11.0, 8),
            asked(),
            cuts(0),
            candidates(22.0, 9),
            pruned(),
            stitched(),
        ]
    }

    /// Combines a square with a triangle whose last corner is this high up.
    fn combine_with(
        high: f64,
        replies: Vec<Reply>,
        host: &mut Told,
    ) -> (Result<Combined, Refusal>, Vec<Call>) {
        let settings = Settings::new();
        let masks = Masks {
            pline1: &Outline::straight(&[(0.0, 0.0), (4.0, 0.0), (4.0, 4.0), (0.0, 4.0)])
                .with_edition(2),
            pline2: &Outline::straight(&[(2.0, 2.0), (6.0, 2.0), (6.0, high)]).with_edition(3),
            intersections: &Intersections::from([Intersection::default()]),
            overlaps: &Overlaps::new(),
            setting: settings.named(5),
        };
        assert_eq!(masks.is_straight_and_whole(), high.fract() == 0.0);
        told(replies, || masks.combine(Mode::FirstMinusSecond, host))
    }

    /// Masks that are not whole: the host is asked.
    fn combine(replies: Vec<Reply>, host: &mut Told) -> (Result<Combined, Refusal>, Vec<Call>) {
        combine_with(6.5, replies, host)
    }

    #[test]
    fn the_steps_and_what_each_lends_to_the_next() {
        let mut host = host(1.0);
        let mut replies = steps();
        replies.push(passed(&[0]));
        let (combined, mut calls) = combine(replies, &mut host);
        for at in [0, 2] {
            let ask = calls.remove(at);
            assert_eq!(ask.entry, "settings_ask");
            assert_eq!(ask.lent("edition"), Lent::Count(5));
            assert_eq!(calls[at].lent("tolerance_x"), Lent::Number(0.5));
            assert_eq!(calls[at].lent("tolerance_y"), Lent::Number(0.25));
        }
        let entries: Vec<&str> = calls.iter().map(|call| call.entry).collect();
        let expected = [
            "cut_order",
            "candidates_along",
            "cut_order",
            "candidates_along",
            "prune",
            "stitch",
            "area_pass",
        ];
        assert_eq!(entries, expected);
        assert_eq!(calls[0].lent("source"), Lent::Code(1));
        assert_eq!(calls[2].lent("source"), Lent::Code(2));
        assert_eq!(
            (calls[0].lent("vc"), calls[2].lent("vc")),
            (Lent::Count(4), Lent::Count(3))
        );

        // The cuts as they were told.
        assert_eq!(calls[1].lent("cut_at"), Lent::Counts(vec![1, 0, 0]));
        assert_eq!(calls[3].lent("cut_at"), Lent::Counts(vec![0, 0, 0]));

        // The segment's start with bulge 0, and the cut twice: it is the segment's last one too.
        let splits1 = vec![4.0, 0.0, 0.0, 4.0, 2.0, 0.0, 4.0, 2.0, 0.0];
        assert_eq!(calls[1].lent("splits"), Lent::Numbers(splits1));
        let splits2 = vec![2.0, 2.0, 0.0, 4.0, 2.0, 0.0, 4.0, 2.0, 0.0];
        assert_eq!(calls[3].lent("splits"), Lent::Numbers(splits2));

        // A candidate of one outline is tested against the other.
        let asked: Vec<(Source, f64)> = host.asked.iter().map(|(s, p)| (*s, p.start.x)).collect();
        assert_eq!(asked, [(Source::Pline2, 11.0), (Source::Pline1, 22.0)]);

        let prune = &calls[4];
        assert_eq!(prune.lent("mode"), Lent::Code(2));
        assert_eq!(prune.lent("opposing"), Lent::Code(0));
        assert_eq!(
            (prune.lent("vc1"), prune.lent("vc2")),
            (Lent::Count(4), Lent::Count(3))
        );
        assert_eq!(prune.lent("cand_at1"), Lent::Counts(vec![1, 2]));
        assert_eq!(prune.lent("inside1"), Lent::Answers(vec![1]));
        assert_eq!(prune.lent("inside2"), Lent::Answers(vec![0]));

        // Each outline's edition, and what the call before has given beside the candidates and slices.
        assert_eq!(calls[1].lent("edition"), Lent::Code(2));
        assert_eq!(calls[3].lent("edition"), Lent::Code(3));
        assert_eq!(prune.lent("cand_edition1"), Lent::Editions(vec![8]));
        assert_eq!(prune.lent("cand_edition2"), Lent::Editions(vec![9]));
        assert_eq!(calls[5].lent("slice_edition"), Lent::Editions(vec![4]));
        assert_eq!(calls[5].lent("edition1"), Lent::Code(2));
        assert_eq!(calls[5].lent("edition2"), Lent::Code(3));

        let stitch = &calls[5];
        assert_eq!(stitch.lent("slice_at"), Lent::Counts(vec![2, 0, 1, 2]));
        assert_eq!(stitch.lent("selector"), Lent::Code(1));
        assert_eq!(stitch.lent("setting"), Lent::Count(5));
        assert_eq!(calls[6].lent("setting"), Lent::Count(5));

        let combined = combined.unwrap();
        assert_eq!(combined.kept, [0]);
        assert_eq!(combined.loops().count(), 1);
    }

    #[test]
    fn straight_masks_in_whole_microdegrees_go_by_one_call() {
        let mut host = host(1.0);
        let replies = vec![asked(), pruned(), stitched(), passed(&[0])];
        let (combined, calls) = combine_with(6.0, replies, &mut host);
        let entries: Vec<&str> = calls.iter().map(|call| call.entry).collect();
        let expected = ["settings_ask", "straight_slices", "stitch", "area_pass"];
        assert_eq!(entries, expected);
        assert!(host.asked.is_empty());
        let call = &calls[1];
        assert_eq!(call.lent("mode"), Lent::Code(2));
        assert_eq!(call.lent("opposing"), Lent::Code(0));
        assert_eq!(
            (call.lent("vc1"), call.lent("edition1")),
            (Lent::Count(4), Lent::Code(2))
        );
        assert_eq!(
            (call.lent("vc2"), call.lent("edition2")),
            (Lent::Count(3), Lent::Code(3))
        );
        assert_eq!(call.lent("hits"), Lent::Count(1));
        assert_eq!(call.lent("tolerance_x"), Lent::Number(0.5));
        assert_eq!(call.lent("tolerance_y"), Lent::Number(0.25));
        assert_eq!(calls[2].lent("slice_at"), Lent::Counts(vec![2, 0, 1, 2]));
        assert_eq!(calls[2].lent("slice_edition"), Lent::Editions(vec![4]));
        assert_eq!(combined.unwrap().kept, [0]);
    }

    #[test]
    fn a_refusal_of_the_one_call_ends_it() {
        let refused = |refusal| {
            Reply::of(PruneAnswer {
                refusal,
                ..PruneAnswer::default()
            })
        };
        for (number, refusal) in [
            (1, Refusal::Length),
            (18, Refusal::Range),
            (6, Refusal::Index),
        ] {
            let (combined, calls) =
                combine_with(6.0, vec![asked(), refused(number)], &mut host(1.0));
            assert_eq!(combined, Err(refusal));
            assert_eq!(calls.len(), 2);
        }
    }

    #[test]
    fn what_is_straight_and_whole() {
        let whole = Outline::straight(&[(0.0, -0.0), (-4e8, 4e8)]);
        let (hits, laps) = (Intersections::new(), Overlaps::new());
        let settings = Settings::new();
        let masks = Masks {
            pline1: &whole,
            pline2: &whole,
            intersections: &hits,
            overlaps: &laps,
            setting: settings.named(1),
        };
        assert!(masks.is_straight_and_whole());
        let flat: Outline = [Vertex::new(0.0, 0.0, -0.0), Vertex::new(1.0, 0.0, 0.0)].into();
        assert!(Masks {
            pline1: &flat,
            ..masks
        }
        .is_straight_and_whole());

        for number in [
            0.5,
            4e8 + 1.0,
            -4e8 - 1.0,
            f64::NAN,
            f64::INFINITY,
            1e300,
            5e-324,
        ] {
            for (x, y) in [(number, 0.0), (0.0, number)] {
                let other = Outline::straight(&[(0.0, 0.0), (x, y)]);
                assert!(!Masks {
                    pline1: &other,
                    ..masks
                }
                .is_straight_and_whole());
                assert!(!Masks {
                    pline2: &other,
                    ..masks
                }
                .is_straight_and_whole());
                let point = Point::new(x, y);
                let hit = Intersection {
                    point,
                    ..Intersection::default()
                };
                let hits = Intersections::from([Intersection::default(), hit]);
                assert!(!Masks {
                    intersections: &hits,
                    ..masks
                }
                .is_straight_and_whole());
                let mut lap = Overlap::default();
                lap.view_data.updated_start = Vertex::new(x, y, 0.0);
                let laps = Overlaps::from([Overlap::default(), lap]);
                assert!(!Masks {
                    overlaps: &laps,
                    ..masks
                }
                .is_straight_and_whole());
                let mut lap = Overlap::default();
                lap.view_data.end_point = point;
                let laps = Overlaps::from([lap, Overlap::default()]);
                assert!(!Masks {
                    overlaps: &laps,
                    ..masks
                }
                .is_straight_and_whole());
            }
        }
        for bulge in [1.0, -5e-324, f64::NAN] {
            let arc: Outline = [Vertex::new(0.0, 0.0, 0.0), Vertex::new(1.0, 0.0, bulge)].into();
            assert!(!Masks {
                pline1: &arc,
                ..masks
            }
            .is_straight_and_whole());
            assert!(!Masks {
                pline2: &arc,
                ..masks
            }
            .is_straight_and_whole());
            let mut laps = [Overlap::default(); 3];
            laps[0].view_data.updated_end_bulge = -0.0;
            laps[1].view_data.updated_start.bulge = -0.0;
            let both = Overlaps::from(laps);
            assert!(Masks {
                overlaps: &both,
                ..masks
            }
            .is_straight_and_whole());
            for which in 0..2 {
                let mut laps = laps;
                if which == 0 {
                    laps[2].view_data.updated_start.bulge = bulge;
                } else {
                    laps[2].view_data.updated_end_bulge = bulge;
                }
                let laps = Overlaps::from(laps);
                assert!(!Masks {
                    overlaps: &laps,
                    ..masks
                }
                .is_straight_and_whole());
            }
        }
    }

    #[test]
    fn the_area_pass_says_which_loops_stay() {
        for (kept, loops) in [(&[][..], 0), (&[0], 1)] {
            let mut replies = steps();
            replies.push(passed(kept));
            let (combined, calls) = combine(replies, &mut host(-2.5));
            assert_eq!(calls[8].entry, "area_pass");
            assert_eq!(calls[8].lent("areas"), Lent::Numbers(vec![-2.5]));
            let combined = combined.unwrap();
            assert_eq!(combined.loops().count(), loops);
            assert_eq!(combined.stitched.loop_count(), 1);
        }
    }

    #[test]
    fn a_late_outline_is_told_by_the_stitch() {
        let mut replies: Vec<Reply> = steps().into_iter().take(7).collect();
        replies.push(Reply::of(StitchAnswer {
            refusal: 14,
            ..StitchAnswer::default()
        }));
        let (combined, _) = combine(replies, &mut host(1.0));
        assert_eq!(combined, Err(Refusal::Edition));
    }

    #[test]
    fn the_first_refusal_ends_it() {
        for made in 0..9 {
            let mut replies: Vec<Reply> = steps().into_iter().take(made).collect();
            replies.push(match made {
                0 | 3 => Reply::of(SettingAnswer {
                    refusal: 5,
                    ..SettingAnswer::default()
                }),
                6 => Reply::of(PruneAnswer {
                    refusal: 5,
                    ..PruneAnswer::default()
                }),
                7 => Reply::of(StitchAnswer {
                    refusal: 5,
                    ..StitchAnswer::default()
                }),
                _ => Reply::of(CountAnswer {
                    refusal: 5,
                    count: 0,
                }),
            });
            let (combined, calls) = combine(replies, &mut host(1.0));
            assert_eq!(combined, Err(Refusal::Number));
            assert_eq!(calls.len(), made + 1);
        }
    }
}
