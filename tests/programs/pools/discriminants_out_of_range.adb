--  The discriminants of a block pool beyond their limits, by position and by name, as literals and as sums: each pool
--  raises Constraint_Error (RM 3.7.1, 13.11).
with Ada.Text_IO;             use Ada.Text_IO;
with System.Storage_Elements; use System.Storage_Elements;
with Block_Pools;             use Block_Pools;

procedure Discriminants_Out_Of_Range is
begin
   begin
      declare
         P : Block_Pool (7, 1);
      begin
         Put_Line ("open");
      end;
   exception
      when Constraint_Error =>
         Put_Line ("bad 7, 1");
   end;
   begin
      declare
         P : Block_Pool (4097, 1);
      begin
         Put_Line ("open");
      end;
   exception
      when Constraint_Error =>
         Put_Line ("bad 4097, 1");
   end;
   begin
      declare
         P : Block_Pool (8, 0);
      begin
         Put_Line ("open");
      end;
   exception
      when Constraint_Error =>
         Put_Line ("bad 8, 0");
   end;
   begin
      declare
         P : Block_Pool (8, 65537);
      begin
         Put_Line ("open");
      end;
   exception
      when Constraint_Error =>
         Put_Line ("bad 8, 65537");
   end;
   begin
      declare
         P : Block_Pool (Block_Size => 4097, Block_Count => 8);
      begin
         Put_Line ("open");
      end;
   exception
      when Constraint_Error =>
         Put_Line ("bad Block_Size => 4097, Block_Count => 8");
   end;
   begin
      declare
         P : Block_Pool (Block_Count => 8, Block_Size => 4097);
      begin
         Put_Line ("open");
      end;
   exception
      when Constraint_Error =>
         Put_Line ("bad Block_Count => 8, Block_Size => 4097");
   end;
   begin
      declare
         P : Block_Pool (Block_Count => 0, Block_Size => 8);
      begin
         Put_Line ("open");
      end;
   exception
      when Constraint_Error =>
         Put_Line ("bad Block_Count => 0, Block_Size => 8");
   end;
   begin
      declare
         P : Block_Pool (4096 + 1, 1);
      begin
         Put_Line ("open");
      end;
   exception
      when Constraint_Error =>
         Put_Line ("bad 4096 + 1, 1");
   end;
   begin
      declare
         P : Block_Pool (-8, 1);
      begin
         Put_Line ("open");
      end;
   exception
      when Constraint_Error =>
         Put_Line ("bad -8, 1");
   end;
   begin
      declare
         P : Block_Pool (8 - 9, 1);
      begin
         Put_Line ("open");
      end;
   exception
      when Constraint_Error =>
         Put_Line ("bad 8 - 9, 1");
   end;
end Discriminants_Out_Of_Range;
