\ The cheapest meals of a day, as examples/diet.osil has it.
Minimize
 cost: 0.18 oats + 0.23 milk + 0.3 eggs + 0.12 bread
Subject To
 energy: 185 oats + 160 milk + 75 eggs + 110 bread >= 2000
 protein: 6.5 oats + 8.5 milk + 6.5 eggs + 3.5 bread >= 60
 fat: 3.5 oats + 9 milk + 5.5 eggs + bread <= 70
Bounds
 oats <= 8
 milk <= 8
 eggs <= 8
 bread <= 8
End
