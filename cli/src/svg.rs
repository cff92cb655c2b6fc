//! The nest as SVG: boxes in boxes, one line of text for each use and value, and a curve from each use to its definition.
use crate::nest::{flags_text, Nest};
use std::collections::BTreeMap;

const LINE: usize = 18;
const LETTER: usize = 8;
const PAD: usize = 8;

/// What a line of text is an end of.
#[derive(Clone, Copy, PartialEq, Eq, PartialOrd, Ord)]
enum End {
    Nothing,
    Value(u32),
    Block(u32),
    UseOf(u32),
    UseOfBlock(u32),
}

struct Shape {
    class: &'static str,
    lines: Vec<(String, End)>,
    inner: Vec<Shape>,
}

impl Shape {
    fn width(&self) -> usize {
        let text = self.lines.iter().map(|(line, _)| LETTER * line.len()).max().unwrap_or(0);
        let inner = self.inner.iter().map(Shape::width).max().unwrap_or(0);
        text.max(inner) + 2 * PAD
    }

    fn height(&self) -> usize {
        LINE * self.lines.len() + self.inner.iter().map(|shape| shape.height() + PAD).sum::<usize>() + 2 * PAD
    }
}

fn value_line(nest: &Nest, value: u32) -> (String, End) {
    (format!("value {value}: type {}", nest.type_of(value)), End::Value(value))
}

fn operation_shape(nest: &Nest, number: u32) -> Shape {
    let operation = nest.operation(number);
    let mut lines = vec![(format!("op {number}{}", flags_text(operation.flags)), End::Nothing)];
    lines.extend(operation.operands.iter().map(|named| (format!("use {}: value {}", named.number, named.definition), End::UseOf(named.definition))));
    lines.extend(operation.successors.iter().map(|named| (format!("use {}: block {}", named.number, named.definition), End::UseOfBlock(named.definition))));
    lines.extend(operation.results.iter().map(|value| value_line(nest, *value)));
    let inner = operation.regions.iter().map(|region| region_shape(nest, *region)).collect();
    Shape { class: "op", lines, inner }
}

fn region_shape(nest: &Nest, number: u32) -> Shape {
    let inner = nest.region(number).blocks.iter().map(|block| block_shape(nest, *block)).collect();
    Shape { class: "region", lines: vec![(format!("region {number}"), End::Nothing)], inner }
}

fn block_shape(nest: &Nest, number: u32) -> Shape {
    let block = nest.block(number);
    let mut lines = vec![(format!("block {number}"), End::Block(number))];
    lines.extend(block.arguments.iter().map(|value| value_line(nest, *value)));
    let inner = block.operations.iter().map(|operation| operation_shape(nest, *operation)).collect();
    Shape { class: "block", lines, inner }
}

#[derive(Default)]
struct Drawing {
    out: String,
    /// Where each definition stands.
    definitions: BTreeMap<End, (usize, usize)>,
    uses: Vec<(End, (usize, usize))>,
}

impl Drawing {
    fn shape(&mut self, shape: &Shape, x: usize, mut y: usize) {
        let (width, height) = (shape.width(), shape.height());
        self.out += &format!("<rect class=\"{}\" x=\"{x}\" y=\"{y}\" width=\"{width}\" height=\"{height}\"/>\n", shape.class);
        y += PAD;
        for (line, end) in &shape.lines {
            self.out += &format!("<text x=\"{}\" y=\"{}\">{line}</text>\n", x + PAD, y + LINE - 5);
            let at = (x + PAD + LETTER * line.len(), y + LINE / 2);
            match end {
                End::Nothing => {}
                End::UseOf(value) => self.uses.push((End::Value(*value), at)),
                End::UseOfBlock(block) => self.uses.push((End::Block(*block), at)),
                definition => drop(self.definitions.insert(*definition, at)),
            }
            y += LINE;
        }
        for inner in &shape.inner {
            self.shape(inner, x + PAD, y + PAD);
            y += inner.height() + PAD;
        }
    }

    /// The curves, and how far to the right they reach.
    fn curves(&mut self) -> usize {
        let mut reach = 0;
        for (definition, (x, y)) in &self.uses {
            let (to_x, to_y) = self.definitions[definition];
            let bend = x.max(&to_x) + 30 + y.abs_diff(to_y) / 4;
            let class = if matches!(definition, End::Block(_)) { "successor" } else { "operand" };
            self.out += &format!("<path class=\"{class}\" d=\"M{x} {y}C{bend} {y} {bend} {to_y} {to_x} {to_y}\"/>\n");
            reach = reach.max(bend);
        }
        reach
    }
}

const STYLE: &str = "<style>text{font:13px monospace}rect{fill:#fff;stroke:#333}.block{fill:#eef5ea;rx:6px}.region{fill:#f6f6f6;stroke-dasharray:4}\
path{fill:none;stroke:#b33;marker-end:url(#end)}.successor{stroke:#36b;stroke-dasharray:4}</style>\n\
<defs><marker id=\"end\" orient=\"auto\" refX=\"7\" refY=\"4\" markerWidth=\"8\" markerHeight=\"8\"><path d=\"M1 1L7 4L1 7\" style=\"marker-end:none\"/></marker></defs>\n";

pub fn picture(nest: &Nest) -> String {
    let operations = nest.operations.iter().filter(|operation| operation.block.is_none()).map(|operation| operation_shape(nest, operation.number));
    let blocks = nest.blocks.iter().filter(|block| block.region.is_none()).map(|block| block_shape(nest, block.number));
    let mut drawing = Drawing::default();
    let (mut y, mut width) = (PAD, 0);
    for shape in operations.chain(blocks) {
        drawing.shape(&shape, PAD, y);
        y += shape.height() + PAD;
        width = width.max(shape.width());
    }
    let width = drawing.curves().max(width + PAD) + PAD;
    format!("<svg xmlns=\"http://www.w3.org/2000/svg\" width=\"{width}\" height=\"{y}\">\n{STYLE}{}</svg>\n", drawing.out)
}
