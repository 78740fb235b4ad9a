begin_version
3
end_version
begin_metric
1
end_metric
3
begin_variable
station
-1
3
at(base)
at(mid)
at(front)
end_variable
begin_variable
lamp
-1
2
off
on
end_variable
begin_variable
line
-1
3
none
sighted
lost
end_variable
0
begin_state
0
1
0
end_state
begin_goal
2
2 1
1 1
end_goal
7
begin_operator
sight from bracket
1
0 1
1
0 2 -1 1
2
end_operator
begin_operator
sight
0
1
0 2 -1 1
2
end_operator
begin_operator
move bracket
0
1
0 0 -1 1
1
end_operator
begin_operator
lose line
0
1
0 2 -1 2
0
end_operator
begin_operator
lamp on
0
1
0 1 -1 1
1
end_operator
begin_operator
lamp off
0
1
0 1 -1 0
1
end_operator
begin_operator
move on
0
1
0 0 1 2
1
end_operator
0
