//! A note whose texts are grown by entries as they come.
use char_files::{SiteNo, TextNo};
use fallible::{Fail, Global, Vec};
use note_admission::{Fate, NoteChains, Opening, TextAdmission};
use note_entries::{Claim, Digest, Hash, Saying};
use op_log::Log;

const TEXTS: u16 = 16;

pub struct Admission {
    chains: NoteChains,
    texts: std::vec::Vec<TextAdmission>,
}

impl Admission {
    pub fn new<D: Digest>(digest: &D, opening: Opening, base: Vec<Saying>) -> Result<Admission, Fail> {
        let chains = NoteChains::new(Global, opening, base)?;
        let mut texts = std::vec::Vec::new();
        for text in 1..=TEXTS {
            let text = TextNo::new(text).ok_or("no number")?;
            let mut one = TextAdmission::new(Global, text, chains.base_sites())?;
            one.settle(&chains, digest)?;
            texts.push(one);
        }
        Ok(Admission { chains, texts })
    }

    fn text(&self, text: TextNo) -> &TextAdmission {
        &self.texts[usize::from(text.get()) - 1]
    }

    pub fn log(&self, text: TextNo) -> &Log {
        self.text(text).log()
    }

    pub fn hash(&self, text: TextNo, place: u64) -> Hash {
        self.text(text).hash(place)
    }

    pub fn looked_at(&self, text: TextNo) -> u64 {
        self.text(text).looked_at()
    }

    pub fn head<D: Digest>(
        &self,
        digest: &D,
        text: TextNo,
        site: SiteNo,
    ) -> Result<Option<(Hash, Fate)>, Fail> {
        Ok(self.text(text).head(&self.chains, digest, site)?)
    }

    /// A claim comes; how many texts begin anew.
    pub fn claim<D: Digest>(&mut self, digest: &D, claim: Claim) -> Result<u64, Fail> {
        let lost = self.chains.claim(claim)?;
        let mut anew = 0;
        for text in &mut self.texts {
            anew += u64::from(text.note_claim(claim.site, lost));
            text.settle(&self.chains, digest)?;
        }
        Ok(anew)
    }

    /// A message comes; whether its text begins anew.
    pub fn say<D: Digest>(&mut self, digest: &D, saying: Saying) -> Result<bool, Fail> {
        let (site, seq) = (saying.op.site(), saying.op.seq());
        let text = &mut self.texts[usize::from(saying.op.text().get()) - 1];
        text.expect(site)?;
        let lost = self.chains.say(saying)?;
        let is_anew = text.note_message(site, seq, lost);
        text.settle(&self.chains, digest)?;
        Ok(is_anew)
    }
}
