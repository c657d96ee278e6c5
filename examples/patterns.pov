// ./povfix +Iexamples/patterns.pov +W720 +H360 +A0.2      the picture is examples/patterns.ppm
// The patterns of a pigment, each on a ball and on the box beneath it.

camera { location <0, 2.8, -9> look_at <0, 0.95, 0> right x*image_width/image_height angle 68 }
background { rgb 0.92 }
light_source { <-8, 14, -12>, rgb 1 }
plane { y, 0 pigment { rgb 0.8 } finish { ambient 0.25 diffuse 0.6 } }

#declare Shine = finish { ambient 0.15 diffuse 0.7 phong 0.4 };

// A pattern counts from the origin, and what moves the object moves it along.
#macro Shown(Paint, Place)
  union {
    box { <-0.8, 0, -0.8>, <0.8, 0.8, 0.8> }
    sphere { <0, 1.55, 0>, 0.75 }
    pigment { Paint }
    finish { Shine }
    rotate 25*y
    translate Place*x
  }
#end

#declare Checks = pigment { checker rgb <0.9, 0.9, 0.8>, rgb <0.2, 0.35, 0.6> scale 0.4 };
#declare Bricks = pigment { brick rgb 0.75, rgb <0.65, 0.25, 0.2> brick_size <0.5, 0.2, 0.3> mortar 0.03 };
#declare Honey = pigment { hexagon rgb <0.95, 0.75, 0.2>, rgb <0.8, 0.5, 0.1>, rgb <0.55, 0.3, 0.05> scale 0.25 };
#declare Sunset = pigment {
  gradient y
  color_map { [0 rgb <0.15, 0.1, 0.35>] [0.4 rgb <0.85, 0.3, 0.3>] [0.75 rgb <1, 0.8, 0.35>] [1 rgb <0.6, 0.8, 1>] }
  scale 2.31
};
#declare Stripes = pigment {
  gradient <1, 1, 0>
  color_map { [0 rgb <0.2, 0.5, 0.3>] [0.5 rgb <0.2, 0.5, 0.3>] [0.5 rgb 0.95] [1 rgb 0.95] }
  scale 0.4
};

Shown(Checks, -4.4)
Shown(Bricks, -2.2)
Shown(Honey, 0)
Shown(Sunset, 2.2)
Shown(Stripes, 4.4)
