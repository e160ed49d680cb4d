//! The example page of docs/FORMAT.md.
pub const EXAMPLE: &[u8] = b"# constraints\npoint p\np.x = 0\ncircle c\nradius(c, 2)\n\n# guesses\np roughly (1, 2)\nc.center roughly (0, 0.5)\nc.radius roughly 1\n";
