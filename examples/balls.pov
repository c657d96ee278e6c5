// ./povfix examples/balls.ini      the pictures are examples/balls01.ppm to examples/balls48.ppm
// Moons on three rings around a sun that beats, before a sky that dims and brightens. The clock goes from 0 to 1 and begins anew
// there, so the film can be shown over and over: each number of turns is whole.

background { rgb <0.03, 0.04, 0.10> + 0.06*(1 + cos(2*pi*clock))*<0.3, 0.4, 1> }

// The sun: two beats a film.
sphere { 4.5*z, 0.55 + 0.07*sin(4*pi*clock) pigment { rgb <1, 0.80, 0.25> } finish { ambient 1 diffuse 0 } }

// The inner ring: two moons that go round twice, nearer and farther as they go.
sphere { vrotate(1.1*x, <0, 720*clock, 0>) + <0, -0.1, 4.5>, 0.17 pigment { rgb <0.80, 0.35, 0.25> } finish { ambient 1 diffuse 0 } }
sphere { vrotate(1.1*x, <0, 720*clock + 180, 0>) + <0, -0.1, 4.5>, 0.17 pigment { rgb <0.90, 0.55, 0.35> } finish { ambient 1 diffuse 0 } }

// The middle ring, tilted: three moons that go round once.
sphere { vrotate(vrotate(1.8*x, <0, -360*clock, 0>), <25, 0, 20>) + 4.5*z, 0.24 pigment { rgb <0.35, 0.60, 0.85> } finish { ambient 1 diffuse 0 } }
sphere { vrotate(vrotate(1.8*x, <0, 120 - 360*clock, 0>), <25, 0, 20>) + 4.5*z, 0.24 pigment { rgb <0.45, 0.75, 0.60> } finish { ambient 1 diffuse 0 } }
sphere { vrotate(vrotate(1.8*x, <0, 240 - 360*clock, 0>), <25, 0, 20>) + 4.5*z, 0.24 pigment { rgb <0.70, 0.70, 0.80> } finish { ambient 1 diffuse 0 } }

// A comet on a long path, every other frame a shade brighter, and three grains of its tail, each a little behind.
sphere { <3.2*cos(2*pi*clock), 1.1*sin(2*pi*clock), 5.5 + 1.5*sin(2*pi*clock)>, 0.13 pigment { rgb 0.85 + 0.15*mod(frame_number, 2)*<1, 1, 1> } finish { ambient 1 diffuse 0 } }
sphere { <3.2*cos(2*pi*(clock - 0.02)), 1.1*sin(2*pi*(clock - 0.02)), 5.5 + 1.5*sin(2*pi*(clock - 0.02))>, 0.10 pigment { rgb <0.70, 0.75, 0.85> } finish { ambient 1 diffuse 0 } }
sphere { <3.2*cos(2*pi*(clock - 0.04)), 1.1*sin(2*pi*(clock - 0.04)), 5.5 + 1.5*sin(2*pi*(clock - 0.04))>, 0.07 pigment { rgb <0.50, 0.55, 0.70> } finish { ambient 1 diffuse 0 } }
sphere { <3.2*cos(2*pi*(clock - 0.06)), 1.1*sin(2*pi*(clock - 0.06)), 5.5 + 1.5*sin(2*pi*(clock - 0.06))>, 0.05 pigment { rgb <0.35, 0.40, 0.55> } finish { ambient 1 diffuse 0 } }

// How far the film is: a bead that goes along the lower edge, from the first frame to the last.
sphere { <-2 + 4*(frame_number - initial_frame)/max(1, final_frame - initial_frame), -1.7, 4>, 0.06 pigment { rgb <1, 0.80, 0.25> } finish { ambient 1 diffuse 0 } }
