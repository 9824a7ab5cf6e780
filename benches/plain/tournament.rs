//! The least of n words under changes of single words, as the library keeps it: a tournament, whose word p is the lesser
//! of 2p and 2p + 1.

pub struct Tournament {
    words: Vec<u64>,
}

impl Tournament {
    pub fn of(players: impl ExactSizeIterator<Item = u64>) -> Tournament {
        let mut words = vec![u64::MAX; players.len()];
        words.extend(players);
        let mut tournament = Tournament { words };
        tournament.play();
        tournament
    }

    /// All players the same.
    pub fn restart(&mut self, player: u64) {
        self.words.fill(player);
    }

    fn play(&mut self) {
        for p in (1..self.words.len() / 2).rev() {
            self.words[p] = self.words[2 * p].min(self.words[2 * p + 1]);
        }
    }

    #[inline(always)]
    pub fn least(&self) -> u64 {
        self.words[1]
    }

    #[inline(always)]
    pub fn change(&mut self, i: usize, player: u64) {
        let mut p = self.words.len() / 2 + i;
        let mut won = player;
        self.words[p] = won;
        while p > 1 {
            won = won.min(self.words[p ^ 1]);
            p /= 2;
            self.words[p] = won;
        }
    }
}
