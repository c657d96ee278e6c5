// ./povfix +Iexamples/glass.pov +W640 +H400 +A0.2      the picture is examples/glass.ppm
// Coloured glass and a mirror: light that goes through a pane takes its colour along.

global_settings { assumed_gamma 1 max_trace_level 12 }
camera { location <0, 2.6, -9> look_at <0, 1.1, 0> right x*image_width/image_height angle 42 }
background { rgb <0.55, 0.68, 0.85> }
light_source { <-14, 18, -10>, rgb 1 }
light_source { <8, 6, -14>, rgb 0.25 shadowless }

plane { y, 0 pigment { checker rgb 0.85, rgb 0.35 scale 0.8 } finish { ambient 0.15 diffuse 0.7 } }

// A mirror behind all.
box {
  <-4.6, 0, 3>, <4.6, 4, 3.15>
  pigment { rgb 0.08 }
  finish { ambient 0.02 diffuse 0.2 reflection 0.85 }
}

#declare Glass = finish { ambient 0 diffuse 0.1 phong 0.9 phong_size 90 reflection 0.08 };

#macro Ball(Place, Size, Tint)
  sphere { Place, Size pigment { Tint } finish { Glass } interior { ior 1.5 } }
#end

Ball(<-2.3, 1, 0>, 1, rgbf <1, 0.45, 0.4, 0.9>)
Ball(<0, 1, -0.6>, 1, rgbf <0.95, 1, 0.97, 0.95>)
Ball(<2.3, 1, 0>, 1, rgbf <0.45, 0.65, 1, 0.9>)

// A shell of glass is a ball without a smaller one.
difference {
  sphere { <-1.15, 0.5, -2.3>, 0.5 }
  sphere { <-1.15, 0.5, -2.3>, 0.44 }
  pigment { rgbf <0.7, 1, 0.6, 0.9> }
  finish { Glass }
  interior { ior 1.5 }
}

// A pane that throws a yellow shadow.
box {
  <-0.55, 0, -0.02>, <0.55, 1.3, 0.02>
  pigment { rgbf <1, 0.85, 0.2, 0.85> }
  finish { Glass }
  rotate 25*y
  translate <1.35, 0, -2.2>
}
