background { color rgb <1,0.5,0> }
