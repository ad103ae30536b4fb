//! Stands for the crate's module `files`, which is not among the sources at hand.
//! Only the printing of messages uses it.

#[derive(Debug, Default)]
pub struct Files {
    pub file_names: Vec<String>,
    pub file_texts: Vec<String>,
    line_maps: Vec<LineMap>,
}

/// The offsets at which the lines of a file end.
#[derive(Debug, Default)]
pub struct LineMap(Vec<usize>);

impl Files {
    pub fn file_name(&self, file: usize) -> Option<&str> {
        self.file_names.get(file).map(String::as_str)
    }

    pub fn file_line_map(&self, file: usize) -> Option<&LineMap> {
        self.line_maps.get(file)
    }
}

impl LineMap {
    pub fn line(&self, offset: usize) -> usize {
        self.0.partition_point(|&end| end <= offset)
    }

    pub fn get(&self, line: usize) -> Option<&usize> {
        self.0.get(line)
    }
}

impl std::ops::Index<usize> for LineMap {
    type Output = usize;

    fn index(&self, line: usize) -> &usize {
        &self.0[line]
    }
}
