// ./povfix +Iexamples/room.pov +W640 +H480 +A0.2      the picture is examples/room.ppm
// A room by night: a spotlight over a table, and a lamp whose light fades with the distance.

global_settings { assumed_gamma 1 max_trace_level 6 ambient_light rgb 0.8 }
camera { location <0, 3.4, -9.2> look_at <0, 1.9, 0> right x*image_width/image_height angle 58 }

light_source {
  <0, 6.6, -0.5>, rgb <1, 0.95, 0.8>*1.3
  spotlight point_at <0, 1, 0> radius 20 falloff 38 tightness 1
}
light_source { <-4.2, 1.9, 2.4>, rgb <1, 0.6, 0.3>*2 fade_distance 2 fade_power 2 }
light_source { <3, 5, -9>, rgb <0.22, 0.25, 0.4> }

// The room is the inside of a box.
box {
  <-6, 0, -10>, <6, 7, 4>
  inverse
  pigment { brick rgb 0.55, rgb <0.5, 0.44, 0.4> brick_size <1.2, 0.5, 1.2> mortar 0.04 }
  finish { ambient 0.15 diffuse 0.7 }
}
box { <-6, 0, -10>, <6, 0.02, 4> pigment { hexagon rgb <0.42, 0.3, 0.22>, rgb <0.5, 0.36, 0.26>, rgb <0.34, 0.25, 0.2> scale 0.5 } finish { diffuse 0.7 reflection 0.06 } }

// The table.
#declare Wood = texture {
  pigment { gradient x color_map { [0 rgb <0.45, 0.28, 0.15>] [0.5 rgb <0.55, 0.36, 0.2>] [1 rgb <0.45, 0.28, 0.15>] } scale 0.35 }
  finish { diffuse 0.7 specular 0.2 roughness 0.05 }
};
union {
  cylinder { <0, 1.3, 0>, <0, 1.42, 0>, 2.1 }
  cylinder { <0, 0, 0>, <0, 1.3, 0>, 0.16 }
  cone { <0, 0, 0>, 0.9, <0, 0.25, 0>, 0.16 }
  texture { Wood }
}

// On it: a bowl, and a ball of glass.
difference {
  sphere { <-0.6, 2, 0>, 0.62 }
  sphere { <-0.6, 2, 0>, 0.56 }
  plane { -y, -2.05 }
  pigment { rgb <0.75, 0.8, 0.9> }
  finish { diffuse 0.6 phong 0.6 reflection 0.1 }
}
sphere { <0.85, 1.82, -0.4>, 0.4 pigment { rgbf <0.9, 1, 0.95, 0.92> } finish { ambient 0 diffuse 0.05 phong 1 phong_size 120 reflection 0.1 } interior { ior 1.45 } }

// A lantern in the corner: its flame stands where the lamp is.
cylinder { <-4.2, 0, 2.4>, <-4.2, 1.5, 2.4>, 0.12 pigment { rgb 0.15 } }
sphere { <-4.2, 1.9, 2.4>, 0.28 pigment { rgb <1, 0.75, 0.4> } finish { ambient 2 diffuse 0 } no_shadow }
