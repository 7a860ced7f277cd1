# SPDX-License-Identifier: MIT OR Apache-2.0
# The targets wkb::wkb and wkb::static or wkb::shared, of which the components are static and shared.
include("${CMAKE_CURRENT_LIST_DIR}/wkb-targets.cmake")
foreach(_wkb_kind IN LISTS wkb_FIND_COMPONENTS)
  set(wkb_${_wkb_kind}_FOUND FALSE)
  if(_wkb_kind MATCHES "^(static|shared)$" AND TARGET wkb::${_wkb_kind})
    set(wkb_${_wkb_kind}_FOUND TRUE)
  elseif(wkb_FIND_REQUIRED_${_wkb_kind})
    set(wkb_FOUND FALSE)
    set(wkb_NOT_FOUND_MESSAGE "there is no component ${_wkb_kind}")
  endif()
endforeach()
unset(_wkb_kind)
