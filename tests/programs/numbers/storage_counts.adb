--  `mod` and `rem` of storage counts, which are no negative numbers, give one result; a divisor of zero raises
--  Constraint_Error (RM 4.5.5).
with Ada.Text_IO;             use Ada.Text_IO;
with System.Storage_Elements; use System.Storage_Elements;

procedure Storage_Counts is
   S : Storage_Count := 17;
   Z : Storage_Count;

   procedure Show (X : in Storage_Count) is
   begin
      Put (Integer'Image (Integer (X)));
   end Show;
begin
   Show (S mod 5);
   Show (S rem 5);
   Show (S mod 20);
   Show (S rem S);
   Show (Z mod S);
   Show (Storage_Count (2147483647) rem 1000);
   New_Line;
   begin
      S := S mod Z;
   exception
      when Constraint_Error =>
         Put_Line ("mod");
   end;
   Show (S);
   S := S rem Z;
end Storage_Counts;
