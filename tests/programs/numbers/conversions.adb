--  A conversion between Integer and Storage_Count keeps the number: of a variable, a literal, a sum, a call and
--  another conversion, and as an operand, an actual and a result (RM 4.6).
with Ada.Text_IO;             use Ada.Text_IO;
with System.Storage_Elements; use System.Storage_Elements;

procedure Conversions is
   I : Integer       := 3;
   N : Storage_Count := 8;

   function Doubled (X : Storage_Count) return Integer is
   begin
      return Integer (X + X);
   end Doubled;

   procedure Show (X : in Integer; Y : in Storage_Count) is
   begin
      Put_Line (Integer'Image (X) & Integer'Image (Integer (Y)));
   end Show;
begin
   N := Storage_Count (I) * N;
   Show (I, N);
   I := Integer (N / 5) - 20;
   Show (I, Storage_Count (-I));
   Show (Doubled (Storage_Count (7)), Storage_Count (Doubled (N)));
   Show (Integer (Storage_Count (Integer (I + 17))), Storage_Count (Integer'Last));
   if Integer (N) > I and then Storage_Count (24) = N then
      Show (Integer (I), Storage_Count (N));
   end if;
end Conversions;
