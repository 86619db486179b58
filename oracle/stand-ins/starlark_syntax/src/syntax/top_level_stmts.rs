//! The statements of a module, out of the blocks that hold them.

use crate::syntax::ast::AstPayload;
use crate::syntax::ast::AstStmtP;
use crate::syntax::ast::StmtP;

pub fn top_level_stmts_mut<P: AstPayload>(top: &mut AstStmtP<P>) -> Vec<&mut AstStmtP<P>> {
    match top.node {
        StmtP::Statements(ref mut stmts) => {
            stmts.iter_mut().flat_map(top_level_stmts_mut).collect()
        }
        _ => vec![top],
    }
}
