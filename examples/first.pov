// ./povfix +Iexamples/first.pov +W320 +H240      the picture is examples/first.ppm
// A green ball before a dark blue sky.

background { color rgb <0.05, 0.1, 0.3> }

sphere {
  <0, 0, 4>, 1
  pigment { color rgb <0.2, 0.8, 0.3> }
  finish { ambient 1 diffuse 0 }
}
