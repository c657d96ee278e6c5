// ./povfix +Iexamples/flange.pov +W640 +H480 +A0.2      the picture is examples/flange.ppm
// A machine part: solids that are joined and cut, and a loop for its holes.

camera { location <5, 6.5, -8> look_at <0, 0.6, 0> right x*image_width/image_height angle 38 }
background { rgb <0.82, 0.86, 0.9> }
light_source { <-10, 16, -12>, rgb 0.9 }
light_source { <12, 8, -4>, rgb 0.3 }

#declare Steel = texture {
  pigment { rgb <0.6, 0.63, 0.68> }
  finish { ambient 0.12 diffuse 0.55 specular 0.7 roughness 0.03 reflection 0.12 }
};

#declare Holes = 8;

difference {
  // the plate, the neck, and a rounded foot between them
  merge {
    cylinder { <0, 0, 0>, <0, 0.5, 0>, 3 }
    cylinder { <0, 0.4, 0>, <0, 2.2, 0>, 1.3 }
    cone { <0, 0.5, 0>, 1.9, <0, 1.1, 0>, 1.3 }
  }
  // the bore
  cylinder { <0, -0.1, 0>, <0, 2.3, 0>, 0.85 }
  cone { <0, 1.9, 0>, 0.85, <0, 2.21, 0>, 1.1 }
  // the bolts' holes
  #for (Hole, 1, Holes)
    union {
      cylinder { <0, -0.1, 0>, <0, 0.6, 0>, 0.24 }
      cylinder { <0, 0.36, 0>, <0, 0.6, 0>, 0.4 }
      translate 2.45*x
      rotate Hole*360/Holes*y
    }
  #end
  // a quarter is cut away to show the inside
  box { <0, -1, -4>, <4, 3, 0> texture { pigment { rgb <0.75, 0.3, 0.2> } finish { ambient 0.15 diffuse 0.6 } } }
  texture { Steel }
}

plane { y, -0.001 pigment { rgb <0.7, 0.72, 0.75> } finish { ambient 0.2 diffuse 0.6 } }
