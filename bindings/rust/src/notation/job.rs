//! Jobs: the scope block, the blocks, the candidates, and names between them.

use super::cursor::Cursor;
use super::error::{NotationError, Position};
use super::names::names_here;
use super::number::whole_u32;
use super::path::path;
use super::positions::{BlockPositions, Positions};
use super::raw_read::raw_read;
use crate::builder::JobBuilder;
use crate::ids::BlockId;
use crate::job::{Block, Job};
use crate::names::Names;
use std::str::FromStr;

impl FromStr for Job {
    type Err = NotationError;

    fn from_str(text: &str) -> Result<Self, NotationError> {
        read_job(text, Names::new())
    }
}

/// The job in a text, whose paths may use these names and those that it gives.
pub(super) fn read_job(text: &str, names: Names) -> Result<Job, NotationError> {
    let (cursor, positions) = (Cursor::new(text), Positions::default());
    let mut reader = Reader { cursor, names, positions, goes_on_with: Vec::new() };
    let builder = reader.job()?;
    let job = builder.build().map_err(|why| {
        let position = reader.positions.of(&why).unwrap_or_else(|| reader.cursor.position());
        NotationError::new(position, why.to_string())
    })?;
    Ok(job.named(reader.names))
}

struct Reader<'t> {
    cursor: Cursor<'t>,
    names: Names,
    positions: Positions,
    /// What may continue the last statement here, for messages.
    goes_on_with: Vec<&'static str>,
}

impl Reader<'_> {
    /// The whole text.
    fn job(&mut self) -> Result<JobBuilder, NotationError> {
        self.cursor.skip_blank();
        self.names()?;
        if !self.cursor.keyword("scope") {
            return Err(self.cursor.due("`name`, or `scope` and the scope block's id,"));
        }
        self.cursor.skip_blank();
        self.positions.scope = Some(self.cursor.position());
        let scope = BlockId(whole_u32(&mut self.cursor, "the scope block's id")?);
        self.cursor.skip_blank();
        self.names()?;
        let mut builder = Job::builder(scope);
        while self.cursor.keyword("block") {
            builder = builder.block(self.block()?);
            self.names()?;
        }
        if self.positions.blocks.is_empty() {
            return Err(self.cursor.due("`name`, or `block` and a block's id,"));
        }
        self.candidates(builder)
    }

    /// The names that stand here.
    fn names(&mut self) -> Result<(), NotationError> {
        if names_here(&mut self.cursor, &mut self.names)? > 0 {
            self.goes_on_with.clear();
        }
        Ok(())
    }

    /// A block after its keyword, and the blanks behind it.
    fn block(&mut self) -> Result<Block, NotationError> {
        let mut positions = BlockPositions::default();
        self.cursor.skip_blank();
        positions.id = Some(self.cursor.position());
        let mut block = Block::new(BlockId(whole_u32(&mut self.cursor, "a block's id")?));
        self.cursor.skip_blank();
        self.goes_on_with = vec!["`after`", "`reads`", "`assumes`"];
        if self.cursor.keyword("after") {
            block = block.after(self.list(&mut positions.predecessors, predecessor)?);
            self.goes_on_with = vec!["`,`", "`reads`", "`assumes`"];
        }
        while self.cursor.keyword("reads") {
            self.cursor.skip_blank();
            positions.raw_reads.push(self.cursor.position());
            let (read, goes_on_with) = raw_read(&mut self.cursor, &self.names)?;
            block = block.reading([read]);
            self.goes_on_with = [goes_on_with, &["`reads`", "`assumes`"]].concat();
        }
        while self.cursor.keyword("assumes") {
            block = block.assuming(self.list(&mut positions.assumed, path)?);
            self.goes_on_with = vec!["`,`", "`assumes`"];
        }
        self.positions.blocks.push(positions);
        self.check_order()?;
        Ok(block)
    }

    /// That no part of a block stands here, behind one that comes after it.
    fn check_order(&mut self) -> Result<(), NotationError> {
        let here = self.cursor.position();
        let message = if self.cursor.keyword("after") {
            "a block's predecessors stand in one list, right after its id"
        } else if self.cursor.keyword("reads") {
            "what a block reads stands before what it assumes"
        } else {
            return Ok(());
        };
        Err(NotationError::new(here, message))
    }

    /// The candidates, to the end of the text.
    fn candidates(&mut self, mut builder: JobBuilder) -> Result<JobBuilder, NotationError> {
        let mut positions = Vec::new();
        while self.cursor.keyword("candidate") {
            builder = builder.candidates(self.list(&mut positions, path)?);
            self.goes_on_with = vec!["`,`"];
            self.names()?;
        }
        self.positions.candidates = positions;
        match self.cursor.peek() {
            None => Ok(builder),
            Some(_) => Err(self.next_statement_is_due()),
        }
    }

    /// Says what may stand here, where a statement may end.
    fn next_statement_is_due(&self) -> NotationError {
        let block = if self.positions.candidates.is_empty() { "`block`, " } else { "" };
        let goes_on: String = self.goes_on_with.iter().map(|word| format!("{word}, ")).collect();
        self.cursor.due(&format!("{goes_on}{block}`candidate`, `name` or the end of the job"))
    }

    /// One item or more with commas between, and the blanks behind them; notes where each stands.
    fn list<T>(
        &mut self,
        positions: &mut Vec<Position>,
        item: impl Fn(&mut Cursor, &Names) -> Result<T, NotationError>,
    ) -> Result<Vec<T>, NotationError> {
        let mut items = Vec::new();
        loop {
            self.cursor.skip_blank();
            positions.push(self.cursor.position());
            items.push(item(&mut self.cursor, &self.names)?);
            self.cursor.skip_blank();
            if !self.cursor.take(",") {
                return Ok(items);
            }
        }
    }
}

fn predecessor(cursor: &mut Cursor, _: &Names) -> Result<BlockId, NotationError> {
    whole_u32(cursor, "a predecessor's id").map(BlockId)
}
