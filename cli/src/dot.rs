//! The nest as a Graphviz graph: clusters for operations with regions, regions and blocks; an arrow from each use to its definition.
use crate::nest::{flags_text, Named, Nest, Operation};
use std::collections::BTreeMap;

struct Drawing<'a> {
    nest: &'a Nest,
    out: String,
    depth: usize,
}

impl Drawing<'_> {
    fn line(&mut self, text: &str) {
        self.out += &"  ".repeat(self.depth);
        self.out += text;
        self.out += "\n";
    }

    fn open(&mut self, text: &str) {
        self.line(text);
        self.depth += 1;
    }

    fn close(&mut self) {
        self.depth -= 1;
        self.line("}");
    }

    /// A node: a column of cells, each with its port.
    fn node(&mut self, name: &str, title: &str, uses: &[&Named], values: &[u32]) {
        self.open(&format!("{name} [label=<<table border=\"0\" cellborder=\"1\" cellspacing=\"0\">"));
        for Named { number, .. } in uses {
            self.line(&format!("<tr><td port=\"u{number}\">use {number}</td></tr>"));
        }
        self.line(&format!("<tr><td><b>{title}</b></td></tr>"));
        for value in values {
            self.line(&format!("<tr><td port=\"v{value}\">value {value}: type {}</td></tr>", self.nest.type_of(*value)));
        }
        self.depth -= 1;
        self.line("</table>>];");
    }

    fn operation_node(&mut self, operation: &Operation) {
        let uses: Vec<&Named> = operation.operands.iter().chain(&operation.successors).collect();
        let title = format!("op {}{}", operation.number, flags_text(operation.flags));
        self.node(&format!("op{}", operation.number), &title, &uses, &operation.results);
    }

    fn operation(&mut self, number: u32) {
        let nest = self.nest;
        let operation = nest.operation(number);
        if operation.regions.is_empty() {
            return self.operation_node(operation);
        }
        self.open(&format!("subgraph cluster_op{number} {{ label=\"op {number}\"; style=bold;"));
        self.operation_node(operation);
        for region in &operation.regions {
            self.open(&format!("subgraph cluster_region{region} {{ label=\"region {region}\"; style=dashed;"));
            let blocks = &nest.region(*region).blocks;
            blocks.iter().for_each(|block| self.block(*block));
            self.close();
            // Here, because a node named in a cluster is drawn in it.
            blocks.iter().for_each(|block| self.below(&format!("block{block}"), &format!("op{number}")));
        }
        self.close();
    }

    fn block(&mut self, number: u32) {
        let nest = self.nest;
        let block = nest.block(number);
        self.open(&format!("subgraph cluster_block{number} {{ label=\"\"; style=rounded;"));
        self.node(&format!("block{number}"), &format!("block {number}"), &[], &block.arguments);
        let mut above = format!("block{number}");
        for operation in &block.operations {
            self.operation(*operation);
            let node = format!("op{operation}");
            self.below(&node, &above);
            above = node;
        }
        self.close();
    }

    /// Holds a node below another: the graph is drawn from its bottom to its top, so that definitions stand above their uses.
    fn below(&mut self, node: &str, above: &str) {
        self.line(&format!("{node} -> {above} [style=invis, weight=9];"));
    }

    fn arrows(&mut self) {
        let homes = homes(self.nest);
        for operation in &self.nest.operations {
            let from = operation.number;
            for Named { number, definition } in &operation.operands {
                self.line(&format!("op{from}:u{number} -> {}:v{definition};", homes[definition]));
            }
            for Named { number, definition } in &operation.successors {
                self.line(&format!("op{from}:u{number} -> block{definition} [style=dashed];"));
            }
        }
    }
}

/// The node of each value.
fn homes(nest: &Nest) -> BTreeMap<u32, String> {
    let results = nest.operations.iter().flat_map(|operation| operation.results.iter().map(move |value| (*value, format!("op{}", operation.number))));
    let arguments = nest.blocks.iter().flat_map(|block| block.arguments.iter().map(move |value| (*value, format!("block{}", block.number))));
    results.chain(arguments).collect()
}

pub fn picture(nest: &Nest) -> String {
    let mut drawing = Drawing { nest, out: String::new(), depth: 0 };
    drawing.open("digraph recipe {");
    drawing.line("rankdir=BT;");
    drawing.line("node [shape=plain, fontname=\"monospace\"];");
    nest.operations.iter().filter(|operation| operation.block.is_none()).for_each(|operation| drawing.operation(operation.number));
    nest.blocks.iter().filter(|block| block.region.is_none()).for_each(|block| drawing.block(block.number));
    drawing.arrows();
    drawing.close();
    drawing.out
}
