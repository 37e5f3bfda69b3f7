kremlin 2
exit 9
ops 47
regions 3
func main 1:5
loop main 1:30
body main 1:47
entries 4
2 2 2
2 3 3
1 35 4 0*3 1*3
0 35 4 2*1
end
