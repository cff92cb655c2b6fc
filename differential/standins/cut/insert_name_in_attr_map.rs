use crate::standins::names::insert_name_in_attr_map;
