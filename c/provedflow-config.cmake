# find_package(provedflow) makes the targets provedflow::provedflow and provedflow::provedflow_static. The libraries lie
# beside this file, as scripts/library.sh puts them, or two folders above it, as the Debian package does.
set(provedflow_PLACES "${CMAKE_CURRENT_LIST_DIR}" "${CMAKE_CURRENT_LIST_DIR}/../..")
find_path(provedflow_INCLUDE_DIR provedflow.h HINTS ${provedflow_PLACES})
find_library(provedflow_LIBRARY provedflow HINTS ${provedflow_PLACES})
find_library(provedflow_STATIC_LIBRARY libprovedflow.a HINTS ${provedflow_PLACES})
if(NOT (provedflow_INCLUDE_DIR AND provedflow_LIBRARY AND provedflow_STATIC_LIBRARY))
  set(provedflow_FOUND FALSE)
elseif(NOT TARGET provedflow::provedflow)
  add_library(provedflow::provedflow UNKNOWN IMPORTED)
  set_property(TARGET provedflow::provedflow PROPERTY IMPORTED_LOCATION "${provedflow_LIBRARY}")
  add_library(provedflow::provedflow_static STATIC IMPORTED)
  set_property(TARGET provedflow::provedflow_static PROPERTY IMPORTED_LOCATION "${provedflow_STATIC_LIBRARY}")
  set_property(TARGET provedflow::provedflow provedflow::provedflow_static
    PROPERTY INTERFACE_INCLUDE_DIRECTORIES "${provedflow_INCLUDE_DIR}")
endif()
