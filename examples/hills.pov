// ./povfix +Iexamples/hills.pov +W640 +H480      the picture is examples/hills.ppm
// A red balloon over green hills. Where spheres stand one before another, the nearest is seen.

background { rgb <0.55, 0.78, 0.95> }

// the sun, far behind all
sphere { <-11, 8, 30>, 2.6 pigment { rgb <1, 0.9, 0.45> } finish { ambient 1 diffuse 0 } }

// a cloud of four puffs
sphere { <4.4, 4.6, 18>, 1.1 pigment { rgb <1, 1, 1> } finish { ambient 1 diffuse 0 } }
sphere { <5.7, 5, 18.2>, 1.4 pigment { rgb <1, 1, 1> } finish { ambient 1 diffuse 0 } }
sphere { <7.1, 4.7, 18>, 1.1 pigment { rgb <0.96, 0.97, 1> } finish { ambient 1 diffuse 0 } }
sphere { <5.8, 4.2, 17.6>, 1 pigment { rgb <0.96, 0.97, 1> } finish { ambient 1 diffuse 0 } }

// hills, from the far one to the near one
sphere { <14, -42, 44>, 40 pigment { rgb <0.45, 0.66, 0.5> } finish { ambient 1 diffuse 0 } }
sphere { <-16, -43, 36>, 40 pigment { rgb <0.36, 0.6, 0.36> } finish { ambient 1 diffuse 0 } }
sphere { <6, -42.6, 26>, 40 pigment { rgb <0.25, 0.5, 0.26> } finish { ambient 1 diffuse 0 } }

// the balloon and its basket
sphere { <-0.6, 1.1, 8>, 1.25 pigment { rgb <0.85, 0.13, 0.12> } finish { ambient 1 diffuse 0 } }
sphere { <-0.6, 1.1, 6.9>, 0.45 pigment { rgb <0.98, 0.55, 0.2> } finish { ambient 1 diffuse 0 } }
sphere { <-0.6, -0.55, 8>, 0.22 pigment { rgb <0.4, 0.24, 0.12> } finish { ambient 1 diffuse 0 } }
