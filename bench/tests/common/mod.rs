//! The worked example: a sofa, a door and four operators.

#![allow(dead_code)]

pub const SOFA: &str = "begin_version
3
end_version
begin_metric
1
end_metric
2
begin_variable
sofa
-1
3
hall
den
loft
end_variable
begin_variable
door
-1
2
shut
open
end_variable
0
begin_state
0
0
end_state
begin_goal
1
0 2
end_goal
4
begin_operator
open
0
1
0 1 0 1
1
end_operator
begin_operator
carry hall den
1
1 1
1
0 0 0 1
3
end_operator
begin_operator
carry den loft
0
1
0 0 1 2
2
end_operator
begin_operator
hoist
0
1
0 0 0 2
7
end_operator
0
";

/// The example without operators 2 and 3.
pub fn sofa_without_loft() -> String {
    let start = SOFA.find("begin_operator\ncarry den loft").unwrap();
    let text = format!("{}0\n", &SOFA[..start]);
    text.replacen("end_goal\n4\n", "end_goal\n2\n", 1)
}
