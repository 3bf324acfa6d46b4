--  A pool with a discriminant out of range ends the program by Constraint_Error, before anything of the pool is made
--  (RM 3.7.1).
with Block_Pools; use Block_Pools;

procedure Unhandled is
   P : Block_Pool (Block_Count => 65537, Block_Size => 8);
begin
   null;
end Unhandled;
