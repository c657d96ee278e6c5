// ./povfix +Iexamples/spiral.pov +W640 +H480      the picture is examples/spiral.ppm
// Pearls on a spiral, placed and coloured by expressions.

background { rgb <0.02, 0.03, 0.08> + 0.05*z }

sphere { vrotate(1.6*x, <0, 0, 0>) + 6*z, 1/2 pigment { rgb <1, 0.95, 0.85> } finish { ambient 1 diffuse 0 } }
sphere { vrotate(1.5*x, <0, 0, 40>) + 6*z, 0.46 pigment { rgb <1, 0.95, 0.85>*0.95 } finish { ambient 1 diffuse 0 } }
sphere { vrotate(1.4*x, <0, 0, 80>) + 6*z, 0.42 pigment { rgb <1, 0.95, 0.85>*0.9 } finish { ambient 1 diffuse 0 } }
sphere { vrotate(1.3*x, <0, 0, 120>) + 6*z, 0.38 pigment { rgb <1, 0.95, 0.85>*0.85 } finish { ambient 1 diffuse 0 } }
sphere { vrotate(1.2*x, <0, 0, 160>) + 6*z, 0.35 pigment { rgb <1, 0.95, 0.85>*0.8 } finish { ambient 1 diffuse 0 } }
sphere { vrotate(1.1*x, <0, 0, 200>) + 6*z, 0.32 pigment { rgb <1, 0.95, 0.85>*0.75 } finish { ambient 1 diffuse 0 } }
sphere { vrotate(1.0*x, <0, 0, 240>) + 6*z, 0.29 pigment { rgb <1, 0.95, 0.85>*0.7 } finish { ambient 1 diffuse 0 } }
sphere { vrotate(0.9*x, <0, 0, 280>) + 6*z, 0.26 pigment { rgb <1, 0.95, 0.85>*0.65 } finish { ambient 1 diffuse 0 } }
sphere { vrotate(0.75*x, <0, 0, 325>) + 6*z, 0.23 pigment { rgb <1, 0.95, 0.85>*0.6 } finish { ambient 1 diffuse 0 } }
sphere { vrotate(0.55*x, <0, 0, 380>) + 6*z, sqrt(0.04) pigment { rgb <1, 0.95, 0.85>*0.55 } finish { ambient 1 diffuse 0 } }
sphere { vrotate(0.3*x, <0, 0, 450>) + 6*z, pow(0.4, 2) pigment { color <0.85, 0.2, 0.3> } finish { ambient 1 diffuse 0 } }
