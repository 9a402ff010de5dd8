# Which versions this package may be used for: the first number is the interface's, whose arguments may differ from another's, so only the same
# will do; the second is the release's.
set(PACKAGE_VERSION @VERSION@)
set(cinorbis_interface @INTERFACE@)
if(PACKAGE_FIND_VERSION_MAJOR EQUAL cinorbis_interface AND NOT PACKAGE_FIND_VERSION VERSION_GREATER PACKAGE_VERSION)
  set(PACKAGE_VERSION_COMPATIBLE TRUE)
  if(PACKAGE_FIND_VERSION VERSION_EQUAL PACKAGE_VERSION)
    set(PACKAGE_VERSION_EXACT TRUE)
  endif()
endif()
