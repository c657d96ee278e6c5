// ./povfix +Iexamples/desk.pov +Lexamples +W640 +H480 +A0.2      the picture is examples/desk.ppm
// A desk: a glass ball, a mirror, and a brick that a cylinder is cut out of.
#version 3.7;
#include "tints.inc"

global_settings { assumed_gamma 1.0 max_trace_level 6 }
camera { location <0, 3, -8> look_at <0, 1, 0> right x*image_width/image_height angle 45 }

light_source { <10, 20, -15>, White }
light_source { <-12, 9, -6>, rgb 0.4 }
background { color rgb <0.4, 0.6, 0.9> }

plane { y, 0 pigment { checker Cream, Slate } finish { reflection 0.1 } }

// Glass.
sphere {
  <-1.4, 1, 0>, 1
  pigment { rgbf <0.9, 1, 0.95, 0.9> }
  finish { phong 0.8 reflection 0.1 }
  interior { ior 1.5 }
}

// A mirror.
sphere {
  <1.4, 1, 0.6>, 1
  texture { pigment { color Slate } finish { reflection { 0.7 } specular 0.6 roughness 0.02 } }
}

difference {
  box { <-0.6, 0, -2>, <0.6, 0.6, -1.2> }
  cylinder { <0, 0.6, -1.6>, <0, 0.2, -1.6>, 0.3 }
  pigment { brick Cream, Red brick_size <0.3, 0.1, 0.15> mortar 0.02 }
  rotate 20*y
}
