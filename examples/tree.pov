// ./povfix +Iexamples/tree.pov +W400 +H300      the picture is examples/tree.ppm
// A tree of berries: a macro that calls itself, and a loop for the stars behind it.

background { rgb <0.02, 0.03, 0.10> }

// A ball that shines by itself.
#macro Ball(Place, Size, Shade)
  sphere { Place, Size pigment { rgb Shade } finish { ambient 1 diffuse 0 } }
#end

// A branch of so many parts, from a place into a direction in degrees; each one parts into two shorter ones.
#macro Branch(Place, Angle, Long, Parts)
  #local Tip = Place + vrotate(Long*y, <0, 0, Angle>);
  #for (I, 0, 1, 1/4)
    Ball(Place + I*(Tip - Place), Long/9, <0.45, 0.28, 0.15>)
  #end
  #if (Parts > 1)
    Branch(Tip, Angle + 28, Long*0.74, Parts - 1)
    Branch(Tip, Angle - 22, Long*0.78, Parts - 1)
  #else
    Ball(Tip, 0.07, <0.9, 0.15 + 0.2*(Angle > 0), 0.2>)
  #end
#end

// Stars: where they stand comes from their numbers alone.
#for (N, 1, 60)
  Ball(<mod(N*37, 61)/10 - 3, mod(N*23, 53)/10 - 2.2, 6.5>, 0.02, (0.5 + mod(N, 3)/4)*<1, 1, 0.8>)
#end

Branch(<0, -2.2, 5>, 0, 1, 6)

#debug concat("the tree has ", str(pow(2, 5), 0, 0), " berries\n")
